//! Where one text may be cut, and what its two parts format to.

use std::str;

use super::lent::{Difference, hexadecimal, same};
use super::policies::Policy;
use crate::Random;
use crate::beside;
use crate::calls::{Answer, Calls, FINDING_BYTES};
use crate::reference::calls::LONGEST_TEXT;
use crate::reference::cut;

/// The index of the first count in a row, and the number of counts.
const COUNTS: [usize; 2] = [2, 8];

/// Compares the cut at or below each of the offsets. Where the crate takes the text, the two parts are formatted by the
/// calls and joined, and their totals are added: both must be what the crate says of the whole.
pub fn check(
    calls: &dyn Calls,
    text: &[u8],
    policy: &Policy,
    offsets: &[u64],
) -> Result<(), Difference> {
    let mut before = Answer::NOTHING;
    for &offset in offsets {
        let expected = cut::cut(text, offset);
        let found = Answer::of_word(calls.cut(text, offset));
        let name = || format!("cut at or below {offset}");
        same(name, &expected, &found, Answer::to_string)?;
        // Neighbouring offsets mostly have the same cut.
        if found != before
            && found.number == Answer::DONE
            && let (Ok(whole), Some(beside)) = (str::from_utf8(text), &policy.beside)
            && text.len() <= LONGEST_TEXT
        {
            let parts = text.split_at(found.value as usize);
            check_parts(calls, whole, parts, &policy.bytes, beside)?;
        }
        before = found;
    }
    Ok(())
}

/// Compares the results of two parts with the crate's of the whole.
fn check_parts(
    calls: &dyn Calls,
    whole: &str,
    (first, second): (&[u8], &[u8]),
    policy: &[u8],
    beside: &evfmt::Policy,
) -> Result<(), Difference> {
    let name = |what: &str| format!("{what} of the parts of {} bytes and the rest", first.len());
    let expected = beside::formatted(whole, beside).unwrap_or_else(|| whole.as_bytes().to_vec());
    let joined = [
        formatted(calls, first, policy),
        formatted(calls, second, policy),
    ]
    .concat();
    same(
        || name("text"),
        &expected,
        &joined,
        |bytes| hexadecimal(bytes),
    )?;
    // The crate's rows have ten numbers; the calls' rows have four more.
    let expected = totals(&beside::findings(whole, beside), 80);
    let (one, other) = (listed(calls, first, policy), listed(calls, second, policy));
    let mut sums = totals(&one, FINDING_BYTES);
    for (sum, more) in sums.iter_mut().zip(totals(&other, FINDING_BYTES)) {
        *sum += more;
    }
    same(
        || name("totals"),
        &expected,
        &sums,
        |sums| format!("{sums:?}"),
    )
}

/// A part formatted by the calls.
fn formatted(calls: &dyn Calls, part: &[u8], policy: &[u8]) -> Vec<u8> {
    let mut out = vec![0; 4 * part.len()];
    let answer = Answer::of_word(calls.format(part, policy, &mut out));
    if answer.number != Answer::DONE {
        return part.to_vec();
    }
    out.truncate(answer.value as usize);
    out
}

/// The findings of a part, by the calls. A finding has at least one byte.
fn listed(calls: &dyn Calls, part: &[u8], policy: &[u8]) -> Vec<u8> {
    let mut table = vec![0; part.len() * FINDING_BYTES];
    let answer = Answer::of_word(calls.list(part, policy, &mut table));
    let rows = match answer.number {
        Answer::DONE => answer.value as usize,
        _ => 0,
    };
    table.truncate(rows * FINDING_BYTES);
    table
}

/// The totals of a table with rows of this many bytes.
fn totals(table: &[u8], row_bytes: usize) -> Vec<u64> {
    let [first, number] = COUNTS;
    let mut sums = vec![0; number];
    for row in table.chunks(row_bytes) {
        let counts = row.chunks(8).skip(first);
        for (sum, count) in sums.iter_mut().zip(counts) {
            *sum += count
                .iter()
                .rev()
                .fold(0, |sum, byte| sum << 8 | u64::from(*byte));
        }
    }
    sums
}

/// Every offset of a short text, some past its end, and the largest number.
#[must_use]
pub fn every_offset(length: usize) -> Vec<u64> {
    (0..=length as u64 + 2).chain([u64::MAX]).collect()
}

/// Drawn offsets. Most are within the text.
pub fn drawn(random: &mut Random, text: &[u8]) -> Vec<u64> {
    let offset = |_| match random.below(8) {
        0 => random.element(&[u64::MAX, 1 << 56, 1 << 24, 0]),
        _ => random.below(text.len() + 2) as u64,
    };
    (0..4).map(offset).collect()
}
