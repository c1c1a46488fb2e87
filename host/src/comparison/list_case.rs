//! A list of mending calls beside its book: document 01, "Mending in sequence".

use std::fmt::{self, Display, Formatter};

use super::lent::{Difference, hexadecimal, lend, same};
use super::policies::Policy;
use crate::Random;
use crate::calls::{Calls, FINDING_BYTES};
use crate::reference::book::Book;
use crate::reference::calls::{self, Draft};

/// One call of a list.
#[derive(Debug, Clone, PartialEq, Eq)]
pub struct Mend {
    /// The offset.
    pub offset: u64,
    /// The decision bytes.
    pub decisions: Vec<u8>,
    /// The output's length.
    pub room: usize,
}

impl Display for Mend {
    fn fmt(&self, out: &mut Formatter<'_>) -> fmt::Result {
        let Self {
            offset,
            decisions,
            room,
        } = self;
        write!(
            out,
            "mend at {offset}, decisions {decisions:?}, room {room}"
        )
    }
}

/// A list of drawn calls. Most are at the place of an open finding with valid decisions and a room that is long enough.
#[must_use]
pub fn drawn(random: &mut Random, text: &[u8], policy: &Policy) -> Vec<Mend> {
    let Ok(mut book) = Book::new(text, &policy.bytes) else {
        return Vec::new();
    };
    let mut list = Vec::new();
    for _ in 0..1 + random.below(10) {
        let open = book.open();
        let (mut offset, mut decisions) = if open.is_empty() {
            (random.below(text.len() + 2), Vec::new())
        } else {
            open[random.below(open.len())].clone()
        };
        match random.below(12) {
            0 => offset = random.below(text.len() + 2),
            1 => decisions.push(0),
            2 => drop(decisions.pop()),
            3 if !decisions.is_empty() => {
                let place = random.below(decisions.len());
                decisions[place] = random.element(&[2, 255]);
            }
            4..9 => decisions
                .iter_mut()
                .for_each(|byte| *byte = random.coin().into()),
            _ => {}
        }
        let offset = offset as u64;
        let wanted = book.draft(offset, &decisions).wanted();
        let room = match random.below(6) {
            0 => wanted.saturating_sub(1 + random.below(4)),
            1 | 2 => wanted + random.below(20),
            _ => wanted,
        };
        book.note(offset, &decisions, room);
        list.push(Mend {
            offset,
            decisions,
            room,
        });
    }
    list
}

/// Runs a list: each call reads the text that the last accepted one wrote. Each answer and buffer, and the findings of
/// the text before and after, must be what the book says.
pub fn check(
    calls: &dyn Calls,
    text: &[u8],
    policy: &Policy,
    list: &[Mend],
) -> Result<(), Difference> {
    let Ok(mut book) = Book::new(text, &policy.bytes) else {
        return Ok(());
    };
    let mut current = text.to_vec();
    check_findings(calls, &book, &current, policy, 0)?;
    for (number, mend) in (1..).zip(list) {
        let Mend {
            offset,
            decisions,
            room,
        } = mend;
        let draft = book.draft(*offset, decisions);
        let mut written = Vec::new();
        let name = || format!("call {number} of the list");
        lend(name, &draft, *room, |out| {
            let word = calls.mend(&current, &policy.bytes, *offset, decisions, out);
            written = out.to_vec();
            word
        })?;
        book.note(*offset, decisions, *room);
        if let Draft::Writes { bytes, .. } = &draft
            && bytes.len() <= *room
        {
            written.truncate(bytes.len());
            current = written;
        }
        let name = || format!("the book's text after call {number} (expected)");
        same(name, &book.text(), &current, |text| hexadecimal(text))?;
        check_findings(calls, &book, &current, policy, number)?;
    }
    Ok(())
}

/// Compares the listing of a text with the book's open findings.
fn check_findings(
    calls: &dyn Calls,
    book: &Book<'_>,
    text: &[u8],
    policy: &Policy,
    number: usize,
) -> Result<(), Difference> {
    let table = book.table();
    // The book's table is what a listing gives that reads the text again.
    let afresh = calls::list(text, &policy.bytes);
    let room = table.len() + FINDING_BYTES;
    let name = || format!("list after call {number}");
    let show = |table: &Vec<u8>| hexadecimal(table);
    same(name, &table, &afresh.with_room(room).1.to_vec(), show)?;
    lend(name, &afresh, room, |out| {
        calls.list(text, &policy.bytes, out)
    })
}
