//! What one byte of an input stands for in a text and in a sheet.

use std::sync::LazyLock;

use crate::comparison::sheets::{ALL_BYTES, TOKENS};
use crate::comparison::texts::{Alphabet, NEIGHBOURS, SPOILS};
use crate::reference::characters;

/// The characters that a text has most often: selectors, link, keycap, tags, modifiers, bases of every kind, plain ones.
const OFTEN: [char; 24] = [
    '\u{FE0F}',
    '\u{FE0E}',
    '\u{200D}',
    '\u{20E3}',
    '\u{E0061}',
    '\u{E007F}',
    'a',
    '1',
    '#',
    ' ',
    '\n',
    '\u{2764}',
    '\u{A9}',
    '\u{1F3FB}',
    '\u{1F3FF}',
    '\u{1F1E6}',
    '\u{1F1FF}',
    '\u{261D}',
    '\u{1F469}',
    '\u{1F600}',
    '\u{1F3F4}',
    '\u{4E2D}',
    '\u{430}',
    '\u{23F8}',
];

/// The tokens of texts: the frequent characters, one of each kind, the neighbours, the damaged forms, and then variation
/// entries from the first to the last.
static OF_TEXTS: LazyLock<Vec<Vec<u8>>> = LazyLock::new(|| {
    let kinds = Alphabet::new().one_of_each();
    let characters = OFTEN.into_iter().chain(kinds).chain(NEIGHBOURS);
    let characters = characters.map(|character| character.to_string().into_bytes());
    let spoils = SPOILS.map(<[u8]>::to_vec);
    let mut tokens: Vec<Vec<u8>> = characters.chain(spoils).collect();
    let left = 256 - tokens.len();
    tokens.extend(entries(left).map(|entry| entry.to_string().into_bytes()));
    tokens
});

/// The tokens of sheets: those of the comparison, all bytes of a sheet, numbers around the characters, and then the code
/// points of variation entries.
static OF_SHEETS: LazyLock<Vec<Vec<u8>>> = LazyLock::new(|| {
    let numbers = ["41", "2F", "0030", "000039", "110000", "D800", "0000030"];
    let numbers = numbers.map(str::as_bytes);
    let tokens = TOKENS.into_iter().chain(ALL_BYTES).chain(numbers);
    let mut tokens: Vec<Vec<u8>> = tokens.map(<[u8]>::to_vec).collect();
    let left = 256 - tokens.len();
    tokens.extend(entries(left).map(|entry| format!("{:04X}", u32::from(entry)).into_bytes()));
    tokens
});

/// A number of variation entries, from the first to the last.
fn entries(count: usize) -> impl Iterator<Item = char> {
    let last = characters::entries() - 1;
    let entry = move |number| characters::entry((number * last / (count - 1)) as u64);
    (0..count)
        .filter_map(entry)
        .map(|entry| char::from_u32(entry).unwrap_or('\0'))
}

/// The bytes that a byte stands for in a text.
#[must_use]
pub fn of_text(byte: u8) -> &'static [u8] {
    &OF_TEXTS[usize::from(byte)]
}

/// The bytes that a byte stands for in a sheet.
#[must_use]
pub fn of_sheet(byte: u8) -> &'static [u8] {
    &OF_SHEETS[usize::from(byte)]
}

#[cfg(test)]
mod tests {
    use super::*;

    #[test]
    fn every_byte_stands_for_something() {
        assert_eq!(OF_TEXTS.len(), 256);
        assert_eq!(OF_SHEETS.len(), 256);
        assert_eq!(of_text(0), "\u{FE0F}".as_bytes());
        assert_eq!(of_text(255), "\u{1F6F3}".as_bytes());
        assert_eq!(of_sheet(0), b"30");
        assert_eq!(of_sheet(255), b"1F6F3");
    }
}
