//! What the nine files keep to the crate, shown for the comparison. Each function only calls the item that it
//! is named after; each constant only names a table that the build made.

use crate::policy::{Policy, SingletonRule};
use crate::presentation::Presentation;
use crate::unicode;

/// The Unicode version that the two data files name.
pub const UNICODE_VERSION: &str = env!("EVFMT_UNICODE_VERSION");

/// The characters with a variation sequence, ascending. A character's place here is its bit in a key set.
pub static VARIATION_ENTRIES: &[char] = &unicode::VARIATION_ENTRIES;
/// The characters with the property `Emoji_Modifier`, ascending.
pub static EMOJI_MODIFIERS: &[char] = &unicode::EMOJI_MODIFIERS;
/// The characters with the property `Emoji_Modifier_Base`, ascending.
pub static EMOJI_MODIFIER_BASES: &[char] = &unicode::EMOJI_MODIFIER_BASES;
/// The ranges of the property `Emoji_Presentation`, ascending; no two touch.
pub static EMOJI_PRESENTATION_RANGES: &[(char, char)] = &unicode::EMOJI_PRESENTATION_RANGES;
/// The ranges of the property `Emoji`, ascending; no two touch.
pub static EMOJI_RANGES: &[(char, char)] = &unicode::EMOJI_RANGES;
/// The range of the regional indicators.
pub static RI_RANGES: &[(char, char)] = &unicode::RI_RANGES;

/// The text selector.
pub const TEXT_PRESENTATION_SELECTOR: char = unicode::TEXT_PRESENTATION_SELECTOR;
/// The emoji selector.
pub const EMOJI_PRESENTATION_SELECTOR: char = unicode::EMOJI_PRESENTATION_SELECTOR;
/// The enclosing keycap.
pub const COMBINING_ENCLOSING_KEYCAP: char = unicode::COMBINING_ENCLOSING_KEYCAP;
/// The zero-width joiner.
pub const ZWJ: char = unicode::ZWJ;

/// `unicode::is_tag`.
#[must_use]
pub fn is_tag(character: char) -> bool {
    unicode::is_tag(character)
}

/// `unicode::variation_sequence_index`.
#[must_use]
pub fn variation_sequence_index(character: char) -> Option<usize> {
    unicode::variation_sequence_index(character)
}

/// `unicode::has_variation_sequence`.
#[must_use]
pub fn has_variation_sequence(character: char) -> bool {
    unicode::has_variation_sequence(character)
}

/// `unicode::is_text_default`.
#[must_use]
pub fn is_text_default(character: char) -> bool {
    unicode::is_text_default(character)
}

/// `unicode::is_emoji_default`.
#[must_use]
pub fn is_emoji_default(character: char) -> bool {
    unicode::is_emoji_default(character)
}

/// `unicode::is_emoji_modifier`.
#[must_use]
pub fn is_emoji_modifier(character: char) -> bool {
    unicode::is_emoji_modifier(character)
}

/// `unicode::is_emoji_modifier_base`.
#[must_use]
pub fn is_emoji_modifier_base(character: char) -> bool {
    unicode::is_emoji_modifier_base(character)
}

/// `unicode::is_emoji`.
#[must_use]
pub fn is_emoji(character: char) -> bool {
    unicode::is_emoji(character)
}

/// `unicode::is_ri`.
#[must_use]
pub fn is_ri(character: char) -> bool {
    unicode::is_ri(character)
}

/// `Presentation::as_selector`.
#[must_use]
pub fn as_selector(presentation: Presentation) -> char {
    presentation.as_selector()
}

/// `Policy::singleton_rule` as a number: 0 `BareToEmoji`, 1 `BareToText`, 2 `TextToBare`, 3 `EmojiToBare`.
#[must_use]
pub fn singleton_rule(policy: &Policy, base: char, is_keycap: bool) -> u8 {
    match policy.singleton_rule(base, is_keycap) {
        SingletonRule::BareToEmoji => 0,
        SingletonRule::BareToText => 1,
        SingletonRule::TextToBare => 2,
        SingletonRule::EmojiToBare => 3,
    }
}
