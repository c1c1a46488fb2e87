//! Policies: document 01, "Key set and policy". Policy sheets: document 02, (vi). Policies of other tables: (xii).

use std::fmt::{self, Debug, Display, Formatter};
use std::str::FromStr;
use std::sync::LazyLock;

use crate::calls::{front, with_room};
use crate::key::{self, Context, Key, KeySet, NoEntry, variation_entries};
use crate::{Presentation, Refusal, answer, sys};

/// The bytes of the version, with which a policy begins.
const VERSION_BYTES: usize = 8;
/// The bytes of a character set: a policy is its version and four.
const SET_BYTES: usize = (sys::POLICY_BYTES - VERSION_BYTES) / 4;

/// A policy: two key sets, each an ordinary and a keycap set of characters.
///
/// ```
/// use tilghorz::{Context, KeySet, Policy};
///
/// let heart = "\u{2764}".as_bytes();
/// let mut policy = Policy::default();
/// assert_eq!(&*tilghorz::format(heart, &policy)?, "\u{2764}\u{FE0E}".as_bytes());
/// policy.take(KeySet::BareAsText, '\u{2764}', Context::Ordinary).expect("an entry");
/// assert_eq!(&*tilghorz::format(heart, &policy)?, "\u{2764}\u{FE0F}".as_bytes());
/// # Ok::<(), tilghorz::Refusal>(())
/// ```
///
/// As a text it is a policy sheet: a line for each of the four sets, with code points and ranges of them. The lines are
/// `prefer_bare` ordinary, `prefer_bare` keycap, `bare_as_text` ordinary and `bare_as_text` keycap. A code point has two or
/// four to six upper-case hexadecimal digits. A range includes only the variation entries inside it. The pieces of a line
/// may come in any sequence and overlap; what is written has one form for each policy.
///
/// ```
/// use tilghorz::{Context, KeySet, Policy, Refusal};
///
/// let policy: Policy = "30-39\n\n2764,A9,30-32,31-39\n\n".parse()?;
/// assert!(policy.contains(KeySet::BareAsText, '\u{2764}', Context::Ordinary));
/// assert_eq!(policy.to_string(), "30-39\n\n30-A9,2764\n\n");
///
/// assert_eq!("39-30\n\n\n\n".parse::<Policy>(), Err(Refusal::NotASheet { offset: 0 }));
/// assert_eq!("30,41\n\n\n\n".parse::<Policy>(), Err(Refusal::NotAnEntry { offset: 3 }));
/// # Ok::<(), Refusal>(())
/// ```
#[derive(Clone, PartialEq, Eq, Hash)]
pub struct Policy {
    bytes: [u8; sys::POLICY_BYTES],
}

/// What a policy says of a base.
#[derive(Debug, Clone, Copy, PartialEq, Eq, Hash)]
pub enum SingletonRule {
    /// Neither key set holds it: a bare base gets FE0F by default.
    BareToEmoji,
    /// Only `bare_as_text` holds it: a bare base gets FE0E by default.
    BareToText,
    /// Only `prefer_bare` holds it: FE0F goes.
    EmojiToBare,
    /// Both hold it: FE0E goes.
    TextToBare,
}

impl SingletonRule {
    /// The decision that formatting makes for a bare base, if there is one to make: "one decision, with that default".
    #[must_use]
    pub const fn default_decision(self) -> Option<Presentation> {
        match self {
            Self::BareToEmoji => Some(Presentation::Emoji),
            Self::BareToText => Some(Presentation::Text),
            Self::EmojiToBare | Self::TextToBare => None,
        }
    }

    /// Its name in document 01.
    #[must_use]
    pub const fn name(self) -> &'static str {
        match self {
            Self::BareToEmoji => "BareToEmoji",
            Self::BareToText => "BareToText",
            Self::EmojiToBare => "EmojiToBare",
            Self::TextToBare => "TextToBare",
        }
    }
}

impl Display for SingletonRule {
    /// Its name.
    fn fmt(&self, out: &mut Formatter<'_>) -> fmt::Result {
        out.pad(self.name())
    }
}

impl Default for Policy {
    /// The default policy, as the library has it.
    fn default() -> Self {
        let mut bytes = [0; sys::POLICY_BYTES];
        answer::expect(sys::default_policy(&mut bytes), bytes.len());
        Self { bytes }
    }
}

impl Policy {
    /// The policy of its bytes: 25 words of 8 bytes, lowest byte first. The library itself tests them, with an empty
    /// text. `TryFrom` does the same.
    ///
    /// # Errors
    /// [`Refusal::NotAPolicy`] (2) and [`Refusal::OtherVersion`] (15).
    pub fn from_bytes(bytes: &[u8]) -> Result<Self, Refusal> {
        answer::read(sys::format(&[], bytes, &mut []))?;
        let bytes = bytes.try_into().map_err(|_| Refusal::NotAPolicy)?;
        Ok(Self { bytes })
    }

    /// Whether it is the default policy.
    #[must_use]
    pub fn is_default(&self) -> bool {
        static DEFAULT: LazyLock<Policy> = LazyLock::new(Policy::default);
        *self == *DEFAULT
    }

    /// Its bytes, as they cross.
    #[must_use]
    pub const fn as_bytes(&self) -> &[u8; sys::POLICY_BYTES] {
        &self.bytes
    }

    /// The policy of a sheet, in bytes.
    ///
    /// # Errors
    /// [`Refusal::TextTooLong`] (1), [`Refusal::NotASheet`] (11) and [`Refusal::NotAnEntry`] (12).
    pub fn from_sheet(sheet: &[u8]) -> Result<Self, Refusal> {
        let mut bytes = [0; sys::POLICY_BYTES];
        let word = sys::read_sheet(sheet, &mut bytes);
        answer::read(word)?;
        answer::expect(word, bytes.len());
        Ok(Self { bytes })
    }

    /// The policy for our tables of bytes that were stored under the tables of another Unicode version. `entries` is the
    /// old variation table. An entry of both tables keeps its four memberships, an entry that is gone is dropped, and a
    /// new one gets those of the default policy. The version that the bytes name is not tested.
    ///
    /// ```
    /// use tilghorz::{Context, KeySet, Policy, Refusal};
    ///
    /// // 14.0; the second entry is in `prefer_bare`.
    /// let mut stored = [0; 40];
    /// stored[1] = 14;
    /// stored[8] = 0b10;
    /// let policy = Policy::carried(&['#', '\u{2764}'], &stored)?;
    /// assert!(policy.contains(KeySet::PreferBare, '\u{2764}', Context::Ordinary));
    /// assert!(!policy.contains(KeySet::PreferBare, '#', Context::Ordinary));
    /// assert!(policy.contains(KeySet::PreferBare, '*', Context::Ordinary));
    ///
    /// assert_eq!(Policy::carried(&['\u{2764}', '#'], &stored), Err(Refusal::NotAnEntryList));
    /// # Ok::<(), Refusal>(())
    /// ```
    ///
    /// # Errors
    /// [`Refusal::NotAnEntryList`] (16) and [`Refusal::NotAPolicy`] (2).
    pub fn carried(entries: &[char], stored: &[u8]) -> Result<Self, Refusal> {
        let entries = entries.iter().map(|entry| u64::from(*entry).to_le_bytes());
        let entries: Vec<u8> = entries.flatten().collect();
        let mut bytes = [0; sys::POLICY_BYTES];
        let word = sys::carry_policy(&entries, stored, &mut bytes);
        answer::read(word)?;
        answer::expect(word, bytes.len());
        Ok(Self { bytes })
    }

    /// Its sheet, in bytes. They are ASCII.
    #[must_use]
    pub fn to_sheet(&self) -> Vec<u8> {
        match with_room(sys::SHEET_ROOM, 1, |out| self.write_sheet_into(out)) {
            Ok((len, out)) => front(out, len),
            Err(refusal) => answer::foreign(format_args!("to its own policy: {refusal}")),
        }
    }

    /// Writes its sheet into the caller's buffer, and gives the length of the sheet. [`sys::SHEET_ROOM`] bytes are always
    /// enough room. What is after the sheet stays as it was.
    ///
    /// # Errors
    /// [`Refusal::OutputTooShort`] (8); the buffer is then as it was.
    pub fn write_sheet_into(&self, out: &mut [u8]) -> Result<usize, Refusal> {
        answer::read_done(sys::write_sheet(&self.bytes, out))
    }

    /// Whether a key set holds a base in a context. It holds no character that is no variation entry.
    #[must_use]
    pub fn contains(&self, set: KeySet, character: char, context: Context) -> bool {
        place(set, character, context).is_ok_and(|(byte, bit)| self.bytes[byte] & bit != 0)
    }

    /// Adds a base to a key set. True if it was not in it.
    ///
    /// # Errors
    /// [`NoEntry`] if the character is no variation entry.
    pub fn add(&mut self, set: KeySet, character: char, context: Context) -> Result<bool, NoEntry> {
        let (byte, bit) = place(set, character, context)?;
        let is_new = self.bytes[byte] & bit == 0;
        self.bytes[byte] |= bit;
        Ok(is_new)
    }

    /// Takes a base out of a key set. True if it was in it.
    ///
    /// # Errors
    /// [`NoEntry`] if the character is no variation entry.
    pub fn take(
        &mut self,
        set: KeySet,
        character: char,
        context: Context,
    ) -> Result<bool, NoEntry> {
        let (byte, bit) = place(set, character, context)?;
        let was_in = self.bytes[byte] & bit != 0;
        self.bytes[byte] &= !bit;
        Ok(was_in)
    }

    /// The bases that a key set holds in a context, in ascending order.
    pub fn members(&self, set: KeySet, context: Context) -> impl Iterator<Item = char> + '_ {
        let entries = variation_entries().iter().copied();
        entries.filter(move |entry| self.contains(set, *entry, context))
    }

    /// What the policy says of a base. Nothing of a character that is no variation entry.
    #[must_use]
    pub fn singleton_rule(&self, character: char, context: Context) -> Option<SingletonRule> {
        Some(self.rule(Key::new(character, context).ok()?))
    }

    /// What the policy says of a key.
    #[must_use]
    pub fn rule(&self, key: Key) -> SingletonRule {
        match KeySet::ALL.map(|set| self.holds(set, key)) {
            [false, false] => SingletonRule::BareToEmoji,
            [false, true] => SingletonRule::BareToText,
            [true, false] => SingletonRule::EmojiToBare,
            [true, true] => SingletonRule::TextToBare,
        }
    }

    /// Whether a key set holds a key.
    #[must_use]
    pub fn holds(&self, set: KeySet, key: Key) -> bool {
        self.contains(set, key.character(), key.context())
    }

    /// Flips a membership: a key that the set holds is taken out, another one is added. True if the set then holds it.
    ///
    /// ```
    /// use tilghorz::{Context, Key, KeySet, NoEntry, Policy};
    ///
    /// let mut policy = Policy::default();
    /// let heart = Key::new('\u{2764}', Context::Ordinary)?;
    /// assert!(policy.flip(KeySet::PreferBare, heart));
    /// assert!(policy.holds(KeySet::PreferBare, heart) && !policy.is_default());
    /// assert!(!policy.flip(KeySet::PreferBare, heart));
    /// assert!(policy.is_default());
    /// # Ok::<(), NoEntry>(())
    /// ```
    pub fn flip(&mut self, set: KeySet, key: Key) -> bool {
        if let Ok((byte, bit)) = place(set, key.character(), key.context()) {
            self.bytes[byte] ^= bit;
        }
        self.holds(set, key)
    }
}

impl TryFrom<&[u8]> for Policy {
    type Error = Refusal;

    /// The policy of its bytes.
    fn try_from(bytes: &[u8]) -> Result<Self, Refusal> {
        Self::from_bytes(bytes)
    }
}

impl AsRef<[u8]> for Policy {
    /// Its bytes.
    fn as_ref(&self) -> &[u8] {
        &self.bytes
    }
}

impl FromStr for Policy {
    type Err = Refusal;

    /// The policy of a sheet.
    fn from_str(sheet: &str) -> Result<Self, Refusal> {
        Self::from_sheet(sheet.as_bytes())
    }
}

impl Display for Policy {
    /// Its sheet.
    fn fmt(&self, out: &mut Formatter<'_>) -> fmt::Result {
        out.write_str(&String::from_utf8_lossy(&self.to_sheet()))
    }
}

impl Debug for Policy {
    fn fmt(&self, out: &mut Formatter<'_>) -> fmt::Result {
        let mut out = out.debug_struct("Policy");
        for set in KeySet::ALL {
            let members =
                Context::ALL.map(|context| self.members(set, context).collect::<String>());
            out.field(set.name(), &members);
        }
        out.finish()
    }
}

/// The byte of a key, and its bit. "Entry i at bit i mod 64 of word i/64", and a word has its lowest byte first; so it
/// is at bit i mod 8 of byte i/8. The four character sets stand in the order of the two `ALL`, after the version.
fn place(set: KeySet, character: char, context: Context) -> Result<(usize, u8), NoEntry> {
    let entry = key::entry(character)?;
    let before =
        2 * usize::from(set == KeySet::BareAsText) + usize::from(context == Context::Keycap);
    let byte = VERSION_BYTES + before * SET_BYTES + entry / 8;
    Ok((byte, 1 << (entry % 8)))
}
