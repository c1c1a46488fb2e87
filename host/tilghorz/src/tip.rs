//! The single memberships of a policy that decide a text: document 02, (viii).

use crate::key::{Context, Key, KeySet, NoEntry};
use crate::table::{self, Row, sealed::Read};
use crate::{answer, sys};

/// A membership of a policy whose flip alone alters the formatted text: a base that a key set holds in a context, or does
/// not. The order is that of the list: by code point, ordinary before keycap, `prefer_bare` before `bare_as_text`.
#[derive(Debug, Clone, Copy, PartialEq, Eq, PartialOrd, Ord, Hash)]
pub struct Tip {
    /// The base, a variation entry.
    pub character: char,
    /// The context.
    pub context: Context,
    /// The key set.
    pub set: KeySet,
}

impl Tip {
    /// The base in its context.
    ///
    /// # Errors
    /// [`NoEntry`] if the character is no variation entry. That of a listed membership is one.
    pub fn key(&self) -> Result<Key, NoEntry> {
        Key::new(self.character, self.context)
    }
}

impl Row for Tip {}

impl Read for Tip {
    const BYTES: usize = sys::TIP_BYTES;

    fn read(bytes: &[u8]) -> Self {
        let [code_point, context, set] = table::numbers(bytes);
        let character = u32::try_from(code_point).ok().and_then(char::from_u32);
        let (Some(character), Some(context), Some(set)) =
            (character, Context::ALL.get(context), KeySet::ALL.get(set))
        else {
            answer::foreign(format_args!(
                "the membership {code_point:X} {context} {set}"
            ))
        };
        Self {
            character,
            context: *context,
            set: *set,
        }
    }
}
