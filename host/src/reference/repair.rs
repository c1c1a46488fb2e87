//! Document 02, (ii): "how many bytes belong to it: the maximal subpart of the Unicode Standard, chapter 3. A new intake
//! writes the text with each such stretch replaced by FFFD (three bytes), and the number of replacements."
//!
//! The Unicode Standard, D93b: the maximal subpart is the longest beginning there that also begins a well-formed
//! character, or one byte where there is none. That is looked up in the list of all beginnings of all characters.

use std::collections::HashSet;
use std::sync::LazyLock;

use super::utf8;

/// The bytes of FFFD.
pub const REPLACEMENT: [u8; 3] = [0xEF, 0xBF, 0xBD];

/// The largest number of bytes that begin a character without being one.
const MOST: usize = 3;

/// All lists of bytes that begin a character without being one.
static BEGINNINGS: LazyLock<HashSet<Vec<u8>>> = LazyLock::new(|| {
    let mut beginnings = HashSet::new();
    for character in '\0'..=char::MAX {
        let bytes = character.to_string().into_bytes();
        for length in 1..bytes.len() {
            if !beginnings.contains(&bytes[..length]) {
                beginnings.insert(bytes[..length].to_vec());
            }
        }
    }
    beginnings
});

/// Whether the bytes begin a character and are none yet.
#[must_use]
pub fn is_unfinished(bytes: &[u8]) -> bool {
    BEGINNINGS.contains(bytes)
}

/// The number of bytes of the bad place at the front of the bytes. There is at least one byte.
#[must_use]
pub fn stretch(bytes: &[u8]) -> usize {
    let begins = |length: &usize| is_unfinished(&bytes[..*length]);
    (1..=bytes.len().min(MOST)).rfind(begins).unwrap_or(1)
}

/// The repaired text, and the number of replacements.
#[must_use]
pub fn repaired(text: &[u8]) -> (Vec<u8>, u64) {
    let mut out = Vec::with_capacity(text.len());
    let mut number = 0;
    let mut at = 0;
    while at < text.len() {
        let length = utf8::first(&text[at..]).map(|(_, length)| length);
        match length {
            Some(length) => out.extend(&text[at..at + length]),
            None => {
                out.extend(REPLACEMENT);
                number += 1;
            }
        }
        at += length.unwrap_or_else(|| stretch(&text[at..]));
    }
    (out, number)
}
