//! What taking a damaged text in does to one text, and the texts for it: every short one of bytes at the edges of the
//! ranges, drawn ones, and drawn runs of characters.

use std::collections::BTreeSet;

use super::lent::{Difference, hexadecimal, lend, same};
use crate::Random;
use crate::calls::Calls;
use crate::reference::calls::{self, Draft, LONGEST_TEXT};

/// The bytes at the edges of the ranges of the Unicode Standard's Table 3-7, and the letter A.
#[rustfmt::skip]
pub const EDGES: [u8; 25] = [
    0x00, 0x41, 0x7F, 0x80, 0x8F, 0x90, 0x9F, 0xA0, 0xBF, 0xC0, 0xC1, 0xC2, 0xDF,
    0xE0, 0xE1, 0xEC, 0xED, 0xEE, 0xEF, 0xF0, 0xF1, 0xF3, 0xF4, 0xF5, 0xFF,
];

/// The bytes of the texts of four bytes: an edge of each range of a second byte, and a first byte of each row.
#[rustfmt::skip]
pub const FEWER_EDGES: [u8; 14] = [
    0x41, 0x80, 0x8F, 0x90, 0x9F, 0xA0, 0xBF, 0xC2, 0xE0, 0xE2, 0xED, 0xF0, 0xF1, 0xF4,
];

/// For a text longer than this, fewer rooms are tried.
const LONG_TEXT: usize = 1_000_000;

/// Compares the call on a text with the independent implementation of document 02, and that implementation with the
/// standard library.
pub fn check(calls: &dyn Calls, text: &[u8]) -> Result<(), Difference> {
    let draft = calls::repair(text);
    if let Draft::Writes { bytes, second, .. } = &draft {
        let name = || "from_utf8_lossy (expected) beside the reading of document 02".to_owned();
        let lossy = String::from_utf8_lossy(text).into_owned().into_bytes();
        same(name, &lossy, bytes, |bytes| hexadecimal(bytes))?;
        let name = || "the bad places by utf8_chunks (expected)".to_owned();
        same(name, &bad_places(text), second, u64::to_string)?;
    }
    for room in rooms(&draft, text) {
        let name = || "repair".to_owned();
        lend(name, &draft, room, |out| calls.repair(text, out))?;
    }
    Ok(())
}

/// The number of bad places, by the standard library.
fn bad_places(text: &[u8]) -> u64 {
    let chunks = text.utf8_chunks();
    chunks.filter(|chunk| !chunk.invalid().is_empty()).count() as u64
}

/// The rooms to try: none; the length of the result, one byte less and one byte more; three times the length of the text,
/// which is enough for every result, and one byte less.
fn rooms(draft: &Draft, text: &[u8]) -> BTreeSet<usize> {
    let (wanted, most) = (draft.wanted(), 3 * text.len().min(LONGEST_TEXT));
    if text.len() > LONG_TEXT {
        return BTreeSet::from([wanted.saturating_sub(1), wanted]);
    }
    let off = [wanted.saturating_sub(1), wanted, wanted + 1];
    let most = [most.saturating_sub(1), most, most + 100];
    [0].into_iter().chain(off).chain(most).collect()
}

/// Calls a function with every text of this length over a list of bytes, until it returns an error.
pub fn every_text<E>(
    bytes: &[u8],
    length: usize,
    mut visit: impl FnMut(&[u8]) -> Result<(), E>,
) -> Result<(), E> {
    let texts = bytes.len().pow(length as u32);
    for number in 0..texts {
        let digit = |place: u32| bytes[number / bytes.len().pow(place) % bytes.len()];
        let text: Vec<u8> = (0..length as u32).map(digit).collect();
        visit(&text)?;
    }
    Ok(())
}

/// A drawn text of these bytes.
#[must_use]
pub fn drawn(random: &mut Random) -> Vec<u8> {
    let length = random.below(24);
    (0..length).map(|_| random.element(&EDGES)).collect()
}

/// Characters of each width, for runs of them. Some have a first byte after which the second byte has a range of its own.
const IN_RUNS: [&str; 12] = [
    "a",
    " ",
    "\u{80}",
    "\u{436}",
    "\u{7FF}",
    "\u{905}",
    "\u{4E2D}",
    "\u{D55C}",
    "\u{FE0F}",
    "\u{1F600}",
    "\u{50000}",
    "\u{10FFFF}",
];

/// A drawn text of runs of characters, in which some bytes are others. A text is tested in runs of one width.
#[must_use]
pub fn runs(random: &mut Random) -> Vec<u8> {
    let mut text = Vec::new();
    for _ in 0..1 + random.below(5) {
        let most = random.element(&[1, 2, 12]);
        let times = 1 + random.below(most);
        text.extend(random.element(&IN_RUNS).repeat(times).bytes());
    }
    for _ in 0..random.below(3) {
        let at = random.below(text.len());
        text[at] = random.element(&EDGES);
    }
    text
}

/// Texts of a length around the limit: one of bad bytes alone, whose result is three times as long, and one that ends
/// with the first bytes of a character.
#[must_use]
pub fn around_limit(length: usize) -> [Vec<u8>; 2] {
    let mut cut = vec![b'a'; length];
    cut[length - 2..].copy_from_slice(&[0xE2, 0x9D]);
    [vec![0xFF; length], cut]
}
