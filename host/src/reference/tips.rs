//! Document 02, (viii): "list, for each of the four sets, every variation entry, in the set or not, whose flip alone alters
//! the formatted text."

use std::collections::BTreeSet;

use crate::calls::TIP_BYTES;

use super::calls::{Draft, accept, format, push_numbers};
use super::characters::properties;
use super::{characters, policy, utf8};

/// A membership: the number of a variation entry, whether it is of the keycap set, and whether it is of `bare_as_text`.
#[derive(Debug, Clone, Copy, PartialEq, Eq)]
pub struct Membership {
    /// The entry by its number.
    pub entry: usize,
    /// Keycap, or ordinary.
    pub keycap: bool,
    /// `bare_as_text`, or `prefer_bare`.
    pub as_text: bool,
}

impl Membership {
    /// All of them: "by smallest code point first, then ordinary before keycap, then `prefer_bare` before
    /// `bare_as_text`".
    pub fn all() -> impl Iterator<Item = Self> {
        (0..characters::entries()).flat_map(|entry| {
            [(false, false), (false, true), (true, false), (true, true)].map(|(keycap, as_text)| {
                Self {
                    entry,
                    keycap,
                    as_text,
                }
            })
        })
    }

    /// The bytes of a policy with this membership the other way round, "alone". After the version come "`prefer_bare`
    /// ordinary, `prefer_bare` keycap, then `bare_as_text` likewise"; "entry i at bit i mod 64 of word i/64".
    #[must_use]
    pub fn flipped(self, policy: &[u8]) -> Vec<u8> {
        let set = usize::from(self.keycap) + 2 * usize::from(self.as_text);
        let (byte, bit) = policy::place(set, self.entry);
        let mut flipped = policy.to_vec();
        flipped[byte] ^= bit;
        flipped
    }

    /// Its row: the code point; 0 ordinary, 1 keycap; 0 `prefer_bare`, 1 `bare_as_text`.
    #[must_use]
    pub fn row(self) -> [u64; 3] {
        let code_point = characters::entry(self.entry as u64).map_or(0, u64::from);
        [code_point, self.keycap.into(), self.as_text.into()]
    }
}

/// The call: "It goes into a lent table, with refusal 7 and the number of such flips if the table is short."
///
/// The text is formatted anew for each membership of a character that the text has. Rule 6 asks the policy of the bases of
/// the text alone, so no other flip alters it. The comparison holds this to the crate, by all memberships.
#[must_use]
pub fn list(text: &[u8], policy: &[u8]) -> Draft {
    if let Err(refusal) = accept(text, policy) {
        return Draft::Refused(refusal);
    }
    let before = formatted(text, policy);
    let entries = entries_of(text);
    let mut table = Vec::new();
    for membership in Membership::all().filter(|membership| entries.contains(&membership.entry)) {
        if formatted(text, &membership.flipped(policy)) != before {
            push_numbers(&mut table, &membership.row());
        }
    }
    Draft::table(table, TIP_BYTES)
}

/// The numbers of the variation entries among the characters of a well-formed text.
fn entries_of(text: &[u8]) -> BTreeSet<usize> {
    let mut entries = BTreeSet::new();
    let mut at = 0;
    while let Some((character, length)) = utf8::first(&text[at..]) {
        entries.extend(properties(character).entry.map(usize::from));
        at += length;
    }
    entries
}

/// The formatted text: the text itself if it needs no change.
fn formatted(text: &[u8], policy: &[u8]) -> Vec<u8> {
    match format(text, policy) {
        Draft::Writes { bytes, .. } => bytes,
        _ => text.to_vec(),
    }
}
