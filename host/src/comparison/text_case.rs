//! All that the calls do to one text under one policy.

use std::str;

use super::lent::{Difference, hexadecimal, lend, same};
use super::policies::Policy;
use crate::beside;
use crate::calls::{Calls, FINDING_BYTES, ITEM_BYTES};
use crate::reference::book::Book;
use crate::reference::calls::{self, Draft, LONGEST_TEXT};
use crate::reference::policy::default_policy;

/// The most bytes of a table that is lent. Where it would be longer, the refusal alone is compared.
const LONGEST_TABLE: usize = 32 << 20;

/// A text longer than this has fewer calls.
const LONG_TEXT: usize = 1_000_000;

/// Compares formatting, listing, scanning and mending of a text under a policy. The calls are held to the reading of
/// document 01, and that reading to the crate where the crate takes such a text.
pub fn check(calls: &dyn Calls, text: &[u8], policy: &Policy) -> Result<(), Difference> {
    let bytes = &policy.bytes[..];
    let format = calls::format(text, bytes);
    let list = calls::list(text, bytes);
    let scan = calls::scan(text);
    if let Some((text, policy)) = for_the_crate(text, policy) {
        check_reference(text, policy, &format, &list, &scan)?;
    }
    check_bound(&format, text, bytes)?;
    for room in rooms(&format, 1, text).into_iter().chain(halves(text)) {
        lend(
            || "format".into(),
            &format,
            room,
            |out| calls.format(text, bytes, out),
        )?;
    }
    for room in rooms(&list, 79, text) {
        lend(
            || "list".into(),
            &list,
            room,
            |table| calls.list(text, bytes, table),
        )?;
    }
    for room in rooms(&scan, 31, text) {
        lend(
            || "scan".into(),
            &scan,
            room,
            |table| calls.scan(text, table),
        )?;
    }
    let mends = Mends {
        calls,
        text,
        policy,
    };
    mends.at_no_finding()?;
    if list.wanted() < LONGEST_TABLE {
        mends.at_findings()?;
    }
    Ok(())
}

/// The text and the policy as the crate takes them, if it does.
fn for_the_crate<'a>(text: &'a [u8], policy: &'a Policy) -> Option<(&'a str, &'a evfmt::Policy)> {
    let text = str::from_utf8(text)
        .ok()
        .filter(|text| text.len() <= LONGEST_TEXT)?;
    Some((text, policy.beside.as_ref()?))
}

/// Holds the reading of document 01 to the crate.
fn check_reference(
    text: &str,
    policy: &evfmt::Policy,
    format: &Draft,
    list: &Draft,
    scan: &Draft,
) -> Result<(), Difference> {
    let written = |draft: &Draft| match draft {
        Draft::Writes { bytes, .. } => Some(bytes.clone()),
        _ => None,
    };
    let name =
        |what: &str| format!("the crate's {what} (expected) beside the reading of document 01");
    let formatted = beside::formatted(text, policy);
    same(
        || name("formatted text"),
        &formatted,
        &written(format),
        show_written,
    )?;
    // The crate has no positions in characters and UTF-16 units, and no tag report: of a finding it has the first ten
    // numbers, and of an item the first three.
    let fronts = |draft: &Draft, row: usize, numbers: usize| {
        let table = written(draft)?;
        let rows = table.chunks(row);
        Some(rows.flat_map(|row| &row[..8 * numbers]).copied().collect())
    };
    let findings = Some(beside::findings(text, policy));
    let listed = fronts(list, FINDING_BYTES, 10);
    same(|| name("findings"), &findings, &listed, show_written)?;
    let items = fronts(scan, ITEM_BYTES, 3);
    same(
        || name("items"),
        &Some(beside::items(text)),
        &items,
        show_written,
    )
}

/// What is written, if anything is, as a report has it.
fn show_written(bytes: &Option<Vec<u8>>) -> String {
    bytes
        .as_deref()
        .map_or_else(|| "nothing".to_owned(), hexadecimal)
}

/// The rooms to try: what is wanted, one byte less, none, and more by some bytes and by the text's length. Where
/// nothing is written, none and some.
fn rooms(draft: &Draft, more: usize, text: &[u8]) -> Vec<usize> {
    match draft.wanted() {
        0 => vec![0, 100],
        wanted if wanted > LONGEST_TABLE => vec![0, wanted / 1000],
        wanted if is_long(text) => vec![wanted - 1, wanted + more],
        wanted => vec![
            wanted,
            wanted - 1,
            wanted + more,
            wanted + text.len() + 100,
            0,
        ],
    }
}

/// Five halves of the text's length, and one byte less: under the default policy formatting takes one pass from this room
/// on.
fn halves(text: &[u8]) -> Vec<usize> {
    match 5 * text.len() / 2 {
        0 => Vec::new(),
        _ if is_long(text) => Vec::new(),
        room => vec![room - 1, room],
    }
}

/// Holds the reading to document 02, (vii): "under the default policy twice the formatted length is at most five times
/// the input length".
fn check_bound(format: &Draft, text: &[u8], policy: &[u8]) -> Result<(), Difference> {
    if policy != default_policy() || 2 * format.wanted() <= 5 * text.len() {
        return Ok(());
    }
    Err(Difference {
        call: "format, by the bound under the default policy".to_owned(),
        expected: format!("at most {} bytes", 5 * text.len() / 2),
        found: format!("{} bytes", format.wanted()),
    })
}

/// Whether the text has fewer calls.
const fn is_long(text: &[u8]) -> bool {
    text.len() > LONG_TEXT
}

/// The mending calls on a text under a policy.
struct Mends<'a> {
    calls: &'a dyn Calls,
    text: &'a [u8],
    policy: &'a Policy,
}

impl Mends<'_> {
    /// Compares one call, with each of these rooms beside the one that is wanted.
    fn check(&self, offset: u64, decisions: &[u8], further: &[isize]) -> Result<(), Difference> {
        let (text, bytes) = (self.text, &self.policy.bytes[..]);
        let draft = calls::mend(text, bytes, offset, decisions);
        if let (Draft::Writes { bytes, .. }, Some((text, policy))) =
            (&draft, for_the_crate(text, self.policy))
        {
            let mended = beside::mended(text, policy, offset, decisions);
            let name = || format!("the crate's mending at {offset} with {decisions:?} (expected)");
            same(name, &mended, &Some(bytes.clone()), show_written)?;
        }
        let name = || format!("mend at {offset}, decisions {decisions:?}");
        for more in [0].iter().chain(further) {
            let Some(room) = draft.wanted().checked_add_signed(*more) else {
                continue;
            };
            lend(name, &draft, room, |out| {
                self.calls.mend(text, bytes, offset, decisions, out)
            })?;
        }
        Ok(())
    }

    /// Offsets of no finding, or of one by chance, with decisions that are refused later, if at all.
    fn at_no_finding(&self) -> Result<(), Difference> {
        let length = self.text.len() as u64;
        if is_long(self.text) {
            return self.check(length, &[], &[]);
        }
        for offset in [0, 1, length / 2, length, length + 1, 1 << 56, u64::MAX] {
            self.check(offset, &[], &[])?;
        }
        self.check(length, &[2, 0], &[9])?;
        self.check(1, &[2], &[])
    }

    /// The first three findings and the last three.
    fn at_findings(&self) -> Result<(), Difference> {
        let Ok(book) = Book::new(self.text, &self.policy.bytes) else {
            return Ok(());
        };
        let open = book.open();
        if is_long(self.text) {
            return match open.last() {
                None => Ok(()),
                Some((offset, defaults)) => self.check(*offset as u64, defaults, &[-1]),
            };
        }
        for (number, (offset, defaults)) in open.iter().enumerate() {
            if number < 3 || number + 3 >= open.len() {
                self.at_finding(*offset as u64, defaults)?;
            }
        }
        Ok(())
    }

    /// A finding: its defaults, other decisions, and decisions that are refused.
    fn at_finding(&self, offset: u64, defaults: &[u8]) -> Result<(), Difference> {
        if let Some((text, policy)) = for_the_crate(self.text, self.policy) {
            let name = || format!("the crate's defaults at {offset} (expected)");
            let expected = beside::defaults(text, policy, offset);
            same(name, &expected, &Some(defaults.to_vec()), show_written)?;
        }
        self.check(offset, defaults, &[-1, 9])?;
        for offset in [offset + 1, offset | 1 << 32, offset | 1 << 63] {
            self.check(offset, defaults, &[])?;
        }
        for decisions in decisions(defaults.len()) {
            self.check(offset, &decisions, &[-1])?;
        }
        self.check(offset, &[defaults, &[0]].concat(), &[])?;
        self.check(offset, &[&[2], defaults, &[2]].concat(), &[9])?;
        if let Some((_, fewer)) = defaults.split_last() {
            self.check(offset, fewer, &[9])?;
            self.check(offset, &[fewer, &[2]].concat(), &[9])?;
            self.check(offset, &vec![255; defaults.len()], &[])?;
        }
        Ok(())
    }
}

/// All decisions, if they are few, or else all of one kind and taking turns.
fn decisions(count: usize) -> Vec<Vec<u8>> {
    if count <= 3 {
        let bit = |choice: usize, place: usize| (choice >> place & 1) as u8;
        let each = |choice| (0..count).map(|place| bit(choice, place)).collect();
        (0..1 << count).map(each).collect()
    } else {
        let turns = (0..count).map(|place| (place % 2) as u8).collect();
        vec![vec![0; count], vec![1; count], turns]
    }
}
