//! Values that have names: they are displayed by them, and parsed from them.

use std::error::Error;
use std::fmt::{self, Display, Formatter};

/// A word that is no name of a value of some kind.
#[derive(Debug, Clone, Copy, PartialEq, Eq, Hash)]
pub struct ParseNameError {
    /// What was asked for.
    pub(crate) what: &'static str,
    /// The names that there are.
    pub(crate) names: [&'static str; 2],
}

impl Display for ParseNameError {
    fn fmt(&self, out: &mut Formatter<'_>) -> fmt::Result {
        let [first, second] = self.names;
        write!(out, "not {}: it is {first} or {second}", self.what)
    }
}

impl Error for ParseNameError {}

/// `Display` and `FromStr` of a type of two values, by their names.
macro_rules! by_name {
    ($kind:ident, $what:literal) => {
        impl std::fmt::Display for $kind {
            /// Its name.
            fn fmt(&self, out: &mut std::fmt::Formatter<'_>) -> std::fmt::Result {
                out.pad(self.name())
            }
        }

        impl std::str::FromStr for $kind {
            type Err = crate::ParseNameError;

            /// The value of its name.
            fn from_str(name: &str) -> Result<Self, crate::ParseNameError> {
                let found = $kind::ALL.into_iter().find(|value| value.name() == name);
                found.ok_or(crate::ParseNameError {
                    what: $what,
                    names: $kind::ALL.map(Self::name),
                })
            }
        }
    };
}

pub(crate) use by_name;
