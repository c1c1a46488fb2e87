//! Texts for the comparison: every short one over a small alphabet, drawn ones, and damaged ones.

use std::collections::BTreeMap;

use crate::Random;
use crate::reference::characters::{is_regional_indicator, properties};

/// Characters that the grammar names, and one of no kind.
const NAMED: [char; 7] = [
    '\u{FE0E}',
    '\u{FE0F}',
    '\u{200D}',
    '\u{20E3}',
    '\u{E0061}',
    '\u{E007F}',
    'a',
];

/// Characters beside the named ones and the tables, and at the edges of lengths in bytes.
#[rustfmt::skip]
pub const NEIGHBOURS: [char; 26] = [
    '\0', '"', '\u{7F}', '\u{80}', '\u{7FF}', '\u{800}', '\u{200C}', '\u{200E}', '\u{20E2}',
    '\u{20E4}', '\u{D7FF}', '\u{E000}', '\u{FE0D}', '\u{FE10}', '\u{FFFF}', '\u{10000}', '\u{1F1E5}', '\u{1F200}',
    '\u{1F3FA}', '\u{1F400}', '\u{E0001}', '\u{E001F}', '\u{E0020}', '\u{E0080}', '\u{E0100}', '\u{10FFFF}',
];

/// Bytes that begin or spoil a character: stray tails, long forms, surrogates, numbers past the last.
pub const SPOILS: [&[u8]; 12] = [
    &[0x80],
    &[0xBF],
    &[0xC0, 0x80],
    &[0xC1, 0xBF],
    &[0xE0, 0x9F, 0xBF],
    &[0xED, 0xA0, 0x80],
    &[0xED, 0xBF, 0xBF],
    &[0xF0, 0x8F, 0xBF, 0xBF],
    &[0xF4, 0x90, 0x80, 0x80],
    &[0xF8, 0x88, 0x80, 0x80, 0x80],
    &[0xFF],
    &[0xEF, 0xB8],
];

/// The emoji by what the rules ask of them, and the other characters that texts are made of.
pub struct Alphabet {
    /// The classes of emoji.
    emoji: Vec<Vec<char>>,
}

impl Default for Alphabet {
    fn default() -> Self {
        Self::new()
    }
}

impl Alphabet {
    /// Sorts the emoji.
    #[must_use]
    pub fn new() -> Self {
        let mut classes: BTreeMap<_, Vec<char>> = BTreeMap::new();
        for character in '\0'..=char::MAX {
            let of = properties(character.into());
            if of.emoji {
                let class = (
                    character.is_ascii(),
                    is_regional_indicator(character.into()),
                    of.modifier,
                    of.modifier_base,
                    of.emoji_presentation,
                    of.entry.is_some(),
                );
                classes.entry(class).or_default().push(character);
            }
        }
        Self {
            emoji: classes.into_values().collect(),
        }
    }

    /// One character of each kind.
    #[must_use]
    pub fn one_of_each(&self) -> Vec<char> {
        let first = self.emoji.iter().map(|class| class[0]);
        NAMED.into_iter().chain(first).collect()
    }

    /// A drawn character.
    fn character(&self, random: &mut Random) -> char {
        match random.below(16) {
            0..4 => random.element(&NAMED[..2]),
            4..8 => random.element(&NAMED),
            8 => random.element(&NEIGHBOURS),
            9 => char::from_u32(random.below(0x11_0000) as u32).unwrap_or('b'),
            10 => char::from_u32(0xE_0020 + random.below(0x60) as u32).unwrap_or('c'),
            _ => {
                let class = random.below(self.emoji.len());
                random.element(&self.emoji[class])
            }
        }
    }

    /// A drawn text, most often short.
    #[must_use]
    pub fn drawn(&self, random: &mut Random) -> Vec<u8> {
        let most = random.element(&[4, 8, 16, 16, 24, 120]);
        let length = 1 + random.below(most);
        let text: String = (0..length).map(|_| self.character(random)).collect();
        text.into_bytes()
    }

    /// A drawn text that was damaged at one or more places.
    #[must_use]
    pub fn damaged(&self, random: &mut Random) -> Vec<u8> {
        let mut text = self.drawn(random);
        for _ in 0..1 + random.below(2) {
            let at = random.below(text.len() + 1);
            match random.below(5) {
                0 => text.truncate(at),
                1 if at < text.len() => {
                    text.remove(at);
                }
                2 if at < text.len() => text[at] ^= 1 << random.below(8),
                3 if at < text.len() => text[at] = random.bits() as u8,
                _ => {
                    let spoil = random.element(&SPOILS);
                    text.splice(at..at, spoil.iter().copied());
                }
            }
        }
        text
    }
}

/// Hands every text of this many characters of the list to a function, until it has an error.
pub fn every_text<E>(
    characters: &[char],
    length: usize,
    mut visit: impl FnMut(&str) -> Result<(), E>,
) -> Result<(), E> {
    let mut digits = vec![0; length];
    loop {
        let text: String = digits
            .iter()
            .map(|&digit: &usize| characters[digit])
            .collect();
        visit(&text)?;
        // The next number with this many digits, lowest digit first.
        let Some(place) = digits.iter().position(|digit| digit + 1 < characters.len()) else {
            return Ok(());
        };
        digits[..place].fill(0);
        digits[place] += 1;
    }
}
