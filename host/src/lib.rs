//! The answers of the crate evfmt, and of an independent reading of document 01, for the port to be compared with.
//!
//! - Stored answers, replayed by the port's own program: each part is made by a function that [`PARTS`] lists.
//!   [`policy`] has the key sets and policies; [`items`] the items and findings of [`texts`] and [`sequences`],
//!   written as [`notation`] says. [`stored`] has these and every other file that the program `stored-answers` makes
//!   and checks.
//! - The comparison of the linked library: [`calls`] is its functions as a trait, [`beside`] the crate's answers in
//!   the same forms, [`mod@reference`] the reading of document 01, and [`comparison`] holds the calls to both;
//!   [`boundary`] makes calls on slices of every small length and alignment. The programs that make the calls are in
//!   a package of their own, `compare`, since it links the library.
//!
//! This file has what they share: a line of fields, the words of a key set, and pseudo-random numbers from a given
//! seed, so that every run is the same.

#![forbid(unsafe_code)]
#![warn(missing_docs)]

use std::fmt::{Display, Write};

use evfmt::PolicyKeySet;
use evfmt::internals::VARIATION_ENTRIES;

pub mod beside;
pub mod boundary;
pub mod calls;
pub mod comparison;
pub mod fuzz;
pub mod items;
pub mod notation;
pub mod policy;
pub mod reference;
pub mod sequences;
pub mod stored;
pub mod texts;

/// A part of the stored answers.
pub struct Part {
    /// The name of its file, without the ending.
    pub name: &'static str,
    /// Makes the text.
    pub answers: fn() -> String,
}

/// The parts of the stored answers.
pub const PARTS: [Part; 4] = [
    Part {
        name: "policy",
        answers: policy::answers,
    },
    Part {
        name: "items-short",
        answers: items::short,
    },
    Part {
        name: "items-drawn",
        answers: items::drawn,
    },
    Part {
        name: "items-unicode",
        answers: items::unicode,
    },
];

/// A record: a keyword and fields, each after one blank.
pub struct Record(String);

impl Record {
    /// A record with its keyword alone.
    #[must_use]
    pub fn new(keyword: &str) -> Self {
        Self(keyword.to_owned())
    }

    /// Adds a number in three decimal digits.
    #[must_use]
    pub fn number(self, number: usize) -> Self {
        self.field(format_args!("{number:03}"))
    }

    /// Adds a digit.
    #[must_use]
    pub fn digit(self, digit: u8) -> Self {
        self.field(digit)
    }

    /// Adds a truth value: 0 or 1.
    #[must_use]
    pub fn truth(self, truth: bool) -> Self {
        self.digit(truth.into())
    }

    /// Adds a code point in six hexadecimal digits.
    #[must_use]
    pub fn code_point(self, character: char) -> Self {
        self.field(format_args!("{:06X}", u32::from(character)))
    }

    /// Adds words in sixteen hexadecimal digits each.
    #[must_use]
    pub fn words(self, words: &[u64]) -> Self {
        words.iter().fold(self, |record, word| {
            record.field(format_args!("{word:016X}"))
        })
    }

    /// Adds the words of a key set and its two sizes.
    #[must_use]
    pub fn key_set(self, set: &PolicyKeySet) -> Self {
        let [ordinary, keycap] = sizes(set);
        self.words(&words(set)).number(ordinary).number(keycap)
    }

    /// Adds a text, two hexadecimal digits a byte.
    #[must_use]
    pub fn text(self, text: &str) -> Self {
        self.field(hexadecimal(text))
    }

    /// Ends the record as a line of `out`.
    pub fn end(self, out: &mut String) {
        out.push_str(&self.0);
        out.push('\n');
    }

    /// Adds a field that is written as it is.
    #[must_use]
    pub fn field(mut self, field: impl Display) -> Self {
        // Writing to a string does not fail.
        let _ = write!(self.0, " {field}");
        self
    }
}

/// The bytes of a text, two hexadecimal digits each.
#[must_use]
pub fn hexadecimal(text: &str) -> String {
    text.bytes().map(|byte| format!("{byte:02X}")).collect()
}

/// The words of a key set: the ordinary ones, then the keycap ones. The member with number i of
/// `VARIATION_ENTRIES` is at bit i mod 64 of word i/64.
#[must_use]
pub fn words(set: &PolicyKeySet) -> Vec<u64> {
    let ordinary = character_words(|entry| set.contains(entry));
    let keycap = character_words(|entry| set.contains_keycap(entry));
    [ordinary, keycap].concat()
}

/// The words of the entries with a property.
fn character_words(has: impl Fn(char) -> bool) -> Vec<u64> {
    let bits = |entries: &[char]| {
        (0..)
            .zip(entries)
            .map(|(bit, &entry)| u64::from(has(entry)) << bit)
            .sum()
    };
    VARIATION_ENTRIES.chunks(64).map(bits).collect()
}

/// The numbers of ordinary and of keycap members of a key set.
#[must_use]
pub fn sizes(set: &PolicyKeySet) -> [usize; 2] {
    let count = |has: &dyn Fn(char) -> bool| VARIATION_ENTRIES.iter().filter(|&&e| has(e)).count();
    [
        count(&|entry| set.contains(entry)),
        count(&|entry| set.contains_keycap(entry)),
    ]
}

/// Pseudo-random numbers: the generator SplitMix64.
pub struct Random(u64);

impl Random {
    /// The seed of every part of the stored answers: the letters TILGHORZ.
    const SEED: u64 = 0x5449_4C47_484F_525A;

    /// A generator at its start, from the seed of the stored answers.
    #[must_use]
    pub const fn new() -> Self {
        Self(Self::SEED)
    }

    /// A generator at its start, from a given seed.
    #[must_use]
    pub const fn from_seed(seed: u64) -> Self {
        Self(seed)
    }

    /// The next 64 bits.
    pub const fn bits(&mut self) -> u64 {
        self.0 = self.0.wrapping_add(0x9E37_79B9_7F4A_7C15);
        let mixed = (self.0 ^ (self.0 >> 30)).wrapping_mul(0xBF58_476D_1CE4_E5B9);
        let mixed = (mixed ^ (mixed >> 27)).wrapping_mul(0x94D0_49BB_1331_11EB);
        mixed ^ (mixed >> 31)
    }

    /// True or false, each as likely.
    pub const fn coin(&mut self) -> bool {
        self.bits() & 1 == 1
    }

    /// A number below a bound that is not 0.
    pub const fn below(&mut self, bound: usize) -> usize {
        (self.bits() % bound as u64) as usize
    }

    /// An element of a list that is not empty.
    pub fn element<T: Copy>(&mut self, list: &[T]) -> T {
        list[self.below(list.len())]
    }
}

impl Default for Random {
    fn default() -> Self {
        Self::new()
    }
}
