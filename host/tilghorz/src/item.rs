//! Items: document 01, "Item"; document 02, (i) and (v).

use std::fmt::{self, Display, Formatter};
use std::ops::Range;

use crate::table::{self, Row, sealed::Read};
use crate::{answer, sys};

/// An item. The items of a text tile it, in bytes, in characters and in UTF-16 units, and none is empty.
#[derive(Debug, Clone, PartialEq, Eq, Hash)]
#[non_exhaustive]
pub struct Item {
    /// The offset of its first byte.
    pub start: usize,
    /// The offset after its last byte.
    pub end: usize,
    /// What it is.
    pub kind: ItemKind,
    /// Whether every tag modification in it is complete: its tags, selectors skipped, are one or more of E0020 to E007E
    /// and then one E007F. An item without tag modifications is complete; tags in a passthrough belong to none.
    pub tags_complete: bool,
    /// The number of characters before it.
    pub char_start: usize,
    /// The number of characters up to its end.
    pub char_end: usize,
    /// The number of UTF-16 units before it.
    pub utf16_start: usize,
    /// The number of UTF-16 units up to its end.
    pub utf16_end: usize,
}

impl Item {
    /// Its bytes in the text.
    #[must_use]
    pub const fn span(&self) -> Range<usize> {
        self.start..self.end
    }

    /// Its characters in the text, as `str::chars` counts them.
    #[must_use]
    pub const fn char_span(&self) -> Range<usize> {
        self.char_start..self.char_end
    }

    /// Its UTF-16 units in the text, as `str::encode_utf16` counts them.
    #[must_use]
    pub const fn utf16_span(&self) -> Range<usize> {
        self.utf16_start..self.utf16_end
    }
}

/// What an item is.
#[derive(Debug, Clone, Copy, PartialEq, Eq, Hash)]
pub enum ItemKind {
    /// Text without selectors, 200D and emoji.
    Passthrough,
    /// A run of selectors that belong to nothing.
    UnsanctionedSelectors,
    /// A run of links (200D) that join nothing.
    LinksOnly,
    /// An emoji with what belongs to it.
    EmojiHeaded,
}

impl ItemKind {
    /// All four, in the order of their numbers.
    pub const ALL: [Self; 4] = [
        Self::Passthrough,
        Self::UnsanctionedSelectors,
        Self::LinksOnly,
        Self::EmojiHeaded,
    ];

    /// Its name in a report.
    #[must_use]
    pub const fn name(self) -> &'static str {
        match self {
            Self::Passthrough => "passthrough",
            Self::UnsanctionedSelectors => "unsanctioned-selectors",
            Self::LinksOnly => "links-only",
            Self::EmojiHeaded => "emoji-headed",
        }
    }
}

impl Display for ItemKind {
    /// Its name.
    fn fmt(&self, out: &mut Formatter<'_>) -> fmt::Result {
        out.pad(self.name())
    }
}

impl Row for Item {}

impl Read for Item {
    const BYTES: usize = sys::ITEM_BYTES;

    fn read(bytes: &[u8]) -> Self {
        let [
            start,
            end,
            kind,
            tags_complete,
            char_start,
            char_end,
            utf16_start,
            utf16_end,
        ] = table::numbers(bytes);
        let Some(kind) = ItemKind::ALL.get(kind) else {
            answer::foreign(format_args!("an item of kind {kind}"))
        };
        Self {
            start,
            end,
            kind: *kind,
            tags_complete: tags_complete == 1,
            char_start,
            char_end,
            utf16_start,
            utf16_end,
        }
    }
}
