//! What a policy speaks of: document 01, "Key set and policy". A key is a base in a context.

use std::error::Error;
use std::fmt::{self, Display, Formatter};
use std::str::FromStr;
use std::sync::LazyLock;

use crate::names::by_name;
use crate::{answer, sys};

/// One of the two key sets of a policy.
#[derive(Debug, Clone, Copy, PartialEq, Eq, PartialOrd, Ord, Hash)]
pub enum KeySet {
    /// The bases that are best written bare.
    PreferBare,
    /// The bases that are text when they are bare.
    BareAsText,
}

impl KeySet {
    /// Both, in the order of a policy's bytes.
    pub const ALL: [Self; 2] = [Self::PreferBare, Self::BareAsText];

    /// Its name in document 01.
    #[must_use]
    pub const fn name(self) -> &'static str {
        match self {
            Self::PreferBare => "prefer_bare",
            Self::BareAsText => "bare_as_text",
        }
    }
}

/// Where a base stands.
#[derive(Debug, Clone, Copy, PartialEq, Eq, PartialOrd, Ord, Hash)]
pub enum Context {
    /// Not before 20E3.
    Ordinary,
    /// Before 20E3, as the base of a keycap.
    Keycap,
}

impl Context {
    /// Both, in the order of a key set's bytes.
    pub const ALL: [Self; 2] = [Self::Ordinary, Self::Keycap];

    /// Its name in document 01.
    #[must_use]
    pub const fn name(self) -> &'static str {
        match self {
            Self::Ordinary => "ordinary",
            Self::Keycap => "keycap",
        }
    }
}

by_name!(KeySet, "a key set");
by_name!(Context, "a context");

/// A key: a base that has a variation entry, in a context. A key set holds it or does not.
///
/// Keys are in the order of document 02's list of memberships: by code point, ordinary before keycap. As a text a key is as
/// document 01's sets show it.
///
/// ```
/// use tilghorz::{Context, Key, NoEntry, ParseKeyError};
///
/// let heart = Key::new('\u{2764}', Context::Ordinary)?;
/// assert_eq!(heart.to_string(), "u(2764)");
/// let one: Key = "keycap:u(0031)".parse()?;
/// assert_eq!((one.character(), one.context()), ('1', Context::Keycap));
/// assert!(Key::new('1', Context::Ordinary)? < one && one < heart);
///
/// assert_eq!(Key::new('a', Context::Ordinary), Err(NoEntry('a')));
/// assert_eq!("u(31)".parse::<Key>(), Err(ParseKeyError::Form));
/// assert_eq!("u(0061)".parse::<Key>(), Err(ParseKeyError::NoEntry(NoEntry('a'))));
/// # Ok::<(), Box<dyn std::error::Error>>(())
/// ```
#[derive(Debug, Clone, Copy, PartialEq, Eq, PartialOrd, Ord, Hash)]
pub struct Key {
    character: char,
    context: Context,
}

impl Key {
    /// The key of a base in a context.
    ///
    /// # Errors
    /// [`NoEntry`] if the character is no variation entry.
    pub fn new(character: char, context: Context) -> Result<Self, NoEntry> {
        entry(character)?;
        Ok(Self { character, context })
    }

    /// The base.
    #[must_use]
    pub const fn character(self) -> char {
        self.character
    }

    /// The context.
    #[must_use]
    pub const fn context(self) -> Context {
        self.context
    }

    /// All keys, in ascending order.
    #[must_use]
    pub fn all() -> impl DoubleEndedIterator<Item = Self> + Clone {
        let entries = variation_entries().iter().copied();
        entries.flat_map(|character| Context::ALL.map(|context| Self { character, context }))
    }
}

impl Display for Key {
    fn fmt(&self, out: &mut Formatter<'_>) -> fmt::Result {
        let before = match self.context {
            Context::Ordinary => "",
            Context::Keycap => "keycap:",
        };
        let key = format!("{before}u({:04X})", u32::from(self.character));
        out.pad(&key)
    }
}

impl FromStr for Key {
    type Err = ParseKeyError;

    /// The key of its text. Only the text that [`Display`] gives is taken.
    fn from_str(text: &str) -> Result<Self, ParseKeyError> {
        let (context, base) = match text.strip_prefix("keycap:") {
            Some(base) => (Context::Keycap, base),
            None => (Context::Ordinary, text),
        };
        let digits = base
            .strip_prefix("u(")
            .and_then(|rest| rest.strip_suffix(')'));
        let code_point = digits.and_then(|digits| u32::from_str_radix(digits, 16).ok());
        let character = code_point.and_then(char::from_u32);
        // A key that need not be an entry, to compare the text with the one that is written.
        let written = character.map(|character| Self { character, context });
        match written {
            Some(key) if key.to_string() == text => {
                Self::new(key.character, context).map_err(ParseKeyError::NoEntry)
            }
            _ => Err(ParseKeyError::Form),
        }
    }
}

/// A character that is no variation entry, so that no key set can hold it.
#[derive(Debug, Clone, Copy, PartialEq, Eq, Hash)]
pub struct NoEntry(pub char);

impl Display for NoEntry {
    fn fmt(&self, out: &mut Formatter<'_>) -> fmt::Result {
        let code_point = u32::from(self.0);
        write!(
            out,
            "U+{code_point:04X} has no variation sequence, so a policy cannot speak of it"
        )
    }
}

impl Error for NoEntry {}

/// Why a text is no key.
#[derive(Debug, Clone, Copy, PartialEq, Eq, Hash)]
#[non_exhaustive]
pub enum ParseKeyError {
    /// It has not the form of a key.
    Form,
    /// Its character is no variation entry.
    NoEntry(NoEntry),
}

impl Display for ParseKeyError {
    fn fmt(&self, out: &mut Formatter<'_>) -> fmt::Result {
        match self {
            Self::Form => out.write_str("not a key: keys are such as u(2764) and keycap:u(0031)"),
            Self::NoEntry(no_entry) => no_entry.fmt(out),
        }
    }
}

impl Error for ParseKeyError {}

/// The variation entries, in ascending order, as the library has them.
///
/// ```
/// let entries = tilghorz::variation_entries();
/// assert_eq!((entries.len(), entries[0]), (354, '#'));
/// ```
#[must_use]
pub fn variation_entries() -> &'static [char] {
    static ENTRIES: LazyLock<Vec<char>> = LazyLock::new(|| {
        let entry = |index| answer::read(sys::variation_entry(index)).ok().flatten();
        let code_points = (0..).map_while(entry);
        let character = |code_point| u32::try_from(code_point).ok().and_then(char::from_u32);
        code_points.filter_map(character).collect()
    });
    &ENTRIES
}

/// The number of a variation entry.
pub(crate) fn entry(character: char) -> Result<usize, NoEntry> {
    let entry = variation_entries().binary_search(&character);
    entry.map_err(|_| NoEntry(character))
}
