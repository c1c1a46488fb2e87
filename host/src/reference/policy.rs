//! Document 01, "Key set and policy": which bytes are a policy, and what it says of a base. Document 02, (xi): a policy
//! begins with the version of the tables.

use std::sync::LazyLock;

use evfmt::internals::UNICODE_VERSION;

use super::characters;
use crate::calls::Answer;

/// The bytes of a word.
const WORD: usize = 8;

/// What a policy says of a base.
#[derive(Debug, Clone, Copy, PartialEq, Eq)]
pub enum SingletonRule {
    /// Neither set holds the base.
    BareToEmoji,
    /// Only `bare_as_text` holds it.
    BareToText,
    /// Only `prefer_bare` holds it.
    EmojiToBare,
    /// Both hold it.
    TextToBare,
}

/// A policy: the four character sets, each as its words.
#[derive(Debug, Clone, PartialEq, Eq)]
pub struct Policy {
    prefer_bare: KeySet,
    bare_as_text: KeySet,
}

/// The words of an ordinary and a keycap character set.
#[derive(Debug, Clone, PartialEq, Eq)]
struct KeySet {
    ordinary: Vec<u64>,
    keycap: Vec<u64>,
}

/// W: the number of words of a character set.
#[must_use]
pub fn words() -> usize {
    characters::entries().div_ceil(64)
}

/// The number of bytes of a policy: "a policy is 4W + 1 words" of 8 bytes.
#[must_use]
pub fn bytes() -> usize {
    (4 * words() + 1) * WORD
}

/// The version of the tables, "as major times 256 plus minor".
///
/// # Panics
/// If the data files name no version of two numbers.
#[must_use]
pub fn version() -> u64 {
    let (major, minor) = UNICODE_VERSION.split_once('.').expect("two numbers");
    let number = |digits: &str| digits.parse::<u64>().expect("a number");
    number(major) * 256 + number(minor)
}

/// The byte of a policy and the bit in it that say whether one of the four sets holds an entry. The sets follow the
/// version.
#[must_use]
pub fn place(set: usize, entry: usize) -> (usize, u8) {
    (WORD + set * words() * WORD + entry / 8, 1 << (entry % 8))
}

/// The bytes of the policy with no members.
#[must_use]
pub fn empty() -> Vec<u8> {
    let mut bytes = vec![0; self::bytes()];
    bytes[..WORD].copy_from_slice(&version().to_le_bytes());
    bytes
}

impl Policy {
    /// The policy of some bytes, or their refusal: "15, another version, tested after the word count of 2 and before
    /// its unused bits".
    pub fn read(bytes: &[u8]) -> Result<Self, Answer> {
        let not_a_policy = Answer::new(2, 0);
        if bytes.len() != self::bytes() {
            return Err(not_a_policy);
        }
        let (version, sets) = bytes.split_at(WORD);
        if version != self::version().to_le_bytes() {
            return Err(Answer::new(15, 0));
        }
        let sets: Option<Vec<_>> = sets.chunks(WORD * words()).map(read_words).collect();
        let mut sets = sets.ok_or(not_a_policy)?.into_iter();
        let mut key_set = || {
            Some(KeySet {
                ordinary: sets.next()?,
                keycap: sets.next()?,
            })
        };
        let prefer_bare = key_set().ok_or(not_a_policy)?;
        let bare_as_text = key_set().ok_or(not_a_policy)?;
        Ok(Self {
            prefer_bare,
            bare_as_text,
        })
    }

    /// The words of the four character sets: "`prefer_bare` ordinary, `prefer_bare` keycap, then `bare_as_text` likewise".
    #[must_use]
    pub fn sets(&self) -> [&[u64]; 4] {
        [
            &self.prefer_bare.ordinary,
            &self.prefer_bare.keycap,
            &self.bare_as_text.ordinary,
            &self.bare_as_text.keycap,
        ]
    }

    /// The rule for the variation entry of this number, before a keycap or not.
    #[must_use]
    pub fn singleton_rule(&self, entry: u16, before_keycap: bool) -> SingletonRule {
        let prefer_bare = self.prefer_bare.holds(entry, before_keycap);
        let bare_as_text = self.bare_as_text.holds(entry, before_keycap);
        match (prefer_bare, bare_as_text) {
            (false, false) => SingletonRule::BareToEmoji,
            (false, true) => SingletonRule::BareToText,
            (true, false) => SingletonRule::EmojiToBare,
            (true, true) => SingletonRule::TextToBare,
        }
    }
}

impl KeySet {
    /// "Entry i at bit i mod 64 of word i/64."
    fn holds(&self, entry: u16, before_keycap: bool) -> bool {
        let set = if before_keycap {
            &self.keycap
        } else {
            &self.ordinary
        };
        (set[usize::from(entry / 64)] >> (entry % 64)) & 1 == 1
    }
}

/// The words of a character set, lowest byte first. None if an unused bit is set.
fn read_words(bytes: &[u8]) -> Option<Vec<u64>> {
    let number = |bytes: &[u8]| {
        let bytes = bytes.iter().rev();
        bytes.fold(0, |number, &byte| (number << 8) | u64::from(byte))
    };
    let words: Vec<u64> = bytes.chunks(8).map(number).collect();
    let is_set = |bit: usize| (words[bit / 64] >> (bit % 64)) & 1 == 1;
    let any_unused = (characters::entries()..64 * words.len()).any(is_set);
    (!any_unused).then_some(words)
}

/// The bytes of the default policy. "Reference: `Policy::default`."
#[must_use]
pub fn default_policy() -> &'static [u8] {
    static BYTES: LazyLock<Vec<u8>> =
        LazyLock::new(|| crate::beside::policy_bytes(evfmt::Policy::default()));
    &BYTES
}
