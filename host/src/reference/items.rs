//! Document 01, "Item": the grammar, each choice taking the longest run. Document 02, (i): complete tags.
//!
//! A part of an item is a character that is no selector and S, the selectors after it. What the grammar makes of the
//! character is the part's role.

use super::characters::{
    LAST_TAG, Presentation, is_keycap, is_link, is_regional_indicator, is_tag, properties, selector,
};
use super::utf8;

/// What an item is.
#[derive(Debug, Clone, Copy, PartialEq, Eq)]
pub enum Kind {
    /// Up to the next selector, 200D or emoji.
    Passthrough,
    /// A run of selectors.
    Selectors,
    /// A run of links.
    Links,
    /// Units joined by links, and the links left over.
    Emoji,
}

/// What the grammar makes of a character.
#[derive(Debug, Clone, Copy, PartialEq, Eq)]
pub enum Role {
    /// A link.
    Link,
    /// One of the two letters of a flag.
    FlagLetter,
    /// The one emoji of a stem.
    Base,
    /// A modification by a modifier.
    Modifier,
    /// A modification by 20E3.
    Keycap,
    /// A tag of a tag modification. Two tags with no other part between them are of one modification.
    Tag,
}

/// A character that is no selector, its role, and S.
#[derive(Debug, Clone, PartialEq, Eq)]
pub struct Part {
    /// The character.
    pub character: u32,
    /// What the grammar makes of it.
    pub role: Role,
    /// The selectors after it.
    pub selectors: Vec<Presentation>,
}

/// An item. Its parts are those of links and units; a passthrough and a run of selectors have none.
#[derive(Debug, Clone, PartialEq, Eq)]
pub struct Item {
    /// The offset of its first byte.
    pub start: usize,
    /// The offset after its last byte.
    pub end: usize,
    /// What it is.
    pub kind: Kind,
    /// The parts of links and units.
    pub parts: Vec<Part>,
}

impl Item {
    /// The tag report: "complete when every tag modification in it" is; document 02, (i): "An item without tags is still
    /// complete."
    #[must_use]
    pub fn tags_complete(&self) -> bool {
        let runs = self.parts.chunk_by(|a, b| a.role == b.role);
        runs.filter(|run| run[0].role == Role::Tag).all(is_complete)
    }
}

/// Whether a tag modification with these tags is complete. Document 02, (i): "its tags, selectors skipped, have that shape:
/// E007F last, nowhere earlier, and at least one tag before it".
fn is_complete(tags: &[Part]) -> bool {
    tags.split_last().is_some_and(|(last, before)| {
        last.character == LAST_TAG
            && before.iter().all(|tag| tag.character != LAST_TAG)
            && !before.is_empty()
    })
}

/// The items of a well-formed text, in text order.
pub fn items(text: &[u8]) -> impl Iterator<Item = Item> {
    let mut scan = Scan {
        text,
        at: 0,
        parts: Vec::new(),
    };
    std::iter::from_fn(move || scan.item())
}

/// A text, the offset reached, and the parts of the item so far.
struct Scan<'a> {
    text: &'a [u8],
    at: usize,
    parts: Vec<Part>,
}

impl Scan<'_> {
    /// The character at the offset, if it is not the end.
    fn peek(&self) -> Option<u32> {
        utf8::first(&self.text[self.at..]).map(|(character, _)| character)
    }

    /// Whether the character at the offset is of a kind.
    fn is_at(&self, kind: impl Fn(u32) -> bool) -> bool {
        self.peek().is_some_and(kind)
    }

    /// Passes the character at the offset.
    fn pass(&mut self) {
        self.at += utf8::first(&self.text[self.at..]).map_or(0, |(_, length)| length);
    }

    /// The item at the offset, or the end.
    fn item(&mut self) -> Option<Item> {
        let start = self.at;
        let character = self.peek()?;
        let kind = if is_link(character) {
            self.links();
            Kind::Links
        } else if selector(character).is_some() {
            self.selectors();
            Kind::Selectors
        } else if is_emoji(character) {
            self.units_and_links();
            Kind::Emoji
        } else {
            while self.is_at(|c| selector(c).is_none() && !is_link(c) && !is_emoji(c)) {
                self.pass();
            }
            Kind::Passthrough
        };
        Some(Item {
            start,
            end: self.at,
            kind,
            parts: std::mem::take(&mut self.parts),
        })
    }

    /// "A unit, then further units each joined by exactly one link, then the links left over."
    fn units_and_links(&mut self) {
        self.unit();
        while self.is_at(is_link) {
            self.part(Role::Link);
            if !self.is_at(is_emoji) {
                break;
            }
            self.unit();
        }
        self.links();
    }

    /// A run of links.
    fn links(&mut self) {
        while self.is_at(is_link) {
            self.part(Role::Link);
        }
    }

    /// "A stem and its modifications."
    fn unit(&mut self) {
        self.stem();
        while let Some(role) = self.peek().and_then(modification) {
            self.part(role);
        }
    }

    /// "RI, S, RI, S (a flag); otherwise one emoji and S."
    fn stem(&mut self) {
        let first = self.parts.len();
        let may_be_flag = self.is_at(is_regional_indicator);
        self.part(Role::Base);
        if may_be_flag && self.is_at(is_regional_indicator) {
            self.parts[first].role = Role::FlagLetter;
            self.part(Role::FlagLetter);
        }
    }

    /// The character at the offset, in a role, and S.
    fn part(&mut self, role: Role) {
        if let Some(character) = self.peek() {
            self.pass();
            let selectors = self.selectors();
            self.parts.push(Part {
                character,
                role,
                selectors,
            });
        }
    }

    /// S: "any number of selectors".
    fn selectors(&mut self) -> Vec<Presentation> {
        let mut run = Vec::new();
        while let Some(presentation) = self.peek().and_then(selector) {
            self.pass();
            run.push(presentation);
        }
        run
    }
}

/// Whether the character is emoji.
fn is_emoji(character: u32) -> bool {
    properties(character).emoji
}

/// The modification that a character begins or goes on with.
fn modification(character: u32) -> Option<Role> {
    if properties(character).modifier {
        Some(Role::Modifier)
    } else if is_keycap(character) {
        Some(Role::Keycap)
    } else if is_tag(character) {
        Some(Role::Tag)
    } else {
        None
    }
}
