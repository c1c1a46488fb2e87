//! The Unicode version of the tables, with which a policy begins: document 02, (xi).

use std::fmt::{self, Display, Formatter};

use crate::{answer, sys};

/// A Unicode version, as the first word of a policy names it: "major times 256 plus minor".
#[derive(Debug, Clone, Copy, PartialEq, Eq, PartialOrd, Ord, Hash)]
pub struct Version {
    /// The major number.
    pub major: u64,
    /// The minor number.
    pub minor: u8,
}

impl Version {
    /// The version of a word.
    #[must_use]
    pub const fn of_word(word: u64) -> Self {
        Self {
            major: word / 256,
            minor: word.to_le_bytes()[0],
        }
    }

    /// The version that the bytes of a policy name. None if they are fewer than a word.
    #[must_use]
    pub fn of_policy(bytes: &[u8]) -> Option<Self> {
        let word = bytes.first_chunk()?;
        Some(Self::of_word(u64::from_le_bytes(*word)))
    }
}

impl Display for Version {
    fn fmt(&self, out: &mut Formatter<'_>) -> fmt::Result {
        write!(out, "{}.{}", self.major, self.minor)
    }
}

/// The version of the library's tables. Every policy that the library accepts names it.
///
/// ```
/// use tilghorz::{Policy, Version};
///
/// let policy = Policy::default();
/// assert_eq!(Version::of_policy(policy.as_bytes()), Some(tilghorz::version()));
/// ```
#[must_use]
pub fn version() -> Version {
    let word = sys::version();
    match answer::read(word) {
        Ok(Some(version)) => Version::of_word(version as u64),
        _ => answer::foreign(format_args!("{word:#018X} for its version")),
    }
}
