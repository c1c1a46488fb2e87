//! What document 01, "Character", says of a character.

use std::sync::LazyLock;

use evfmt::internals;

/// A presentation: what a selector asks for, or a decision.
#[derive(Debug, Clone, Copy, PartialEq, Eq)]
pub enum Presentation {
    /// FE0E, or the decision 0.
    Text,
    /// FE0F, or the decision 1.
    Emoji,
}

impl Presentation {
    /// The bytes of the selector: those of FE0E or of FE0F.
    #[must_use]
    pub const fn selector(self) -> &'static [u8] {
        match self {
            Self::Text => &[0xEF, 0xB8, 0x8E],
            Self::Emoji => &[0xEF, 0xB8, 0x8F],
        }
    }

    /// The presentation of a decision byte.
    #[must_use]
    pub const fn of_decision(byte: u8) -> Option<Self> {
        match byte {
            0 => Some(Self::Text),
            1 => Some(Self::Emoji),
            _ => None,
        }
    }

    /// The decision byte.
    #[must_use]
    pub const fn decision(self) -> u8 {
        match self {
            Self::Text => 0,
            Self::Emoji => 1,
        }
    }
}

/// The tag that ends a complete tag modification.
pub const LAST_TAG: u32 = 0xE_007F;

/// The presentation of a selector.
#[must_use]
pub const fn selector(character: u32) -> Option<Presentation> {
    match character {
        0xFE0E => Some(Presentation::Text),
        0xFE0F => Some(Presentation::Emoji),
        _ => None,
    }
}

/// Whether the character is a link.
#[must_use]
pub const fn is_link(character: u32) -> bool {
    character == 0x200D
}

/// Whether the character is the keycap.
#[must_use]
pub const fn is_keycap(character: u32) -> bool {
    character == 0x20E3
}

/// Whether the character is a tag.
#[must_use]
pub fn is_tag(character: u32) -> bool {
    (0xE_0020..=LAST_TAG).contains(&character)
}

/// Whether the character is a regional indicator.
#[must_use]
pub fn is_regional_indicator(character: u32) -> bool {
    (0x1_F1E6..=0x1_F1FF).contains(&character)
}

/// What the two data files say of a character.
#[derive(Debug, Clone, Copy, Default)]
pub struct Properties {
    /// It has the property `Emoji`.
    pub emoji: bool,
    /// It has the property `Emoji_Presentation`.
    pub emoji_presentation: bool,
    /// It has the property `Emoji_Modifier`.
    pub modifier: bool,
    /// It has the property `Emoji_Modifier_Base`.
    pub modifier_base: bool,
    /// Its number among the variation entries.
    pub entry: Option<u16>,
}

impl Properties {
    /// "A base is emoji-default when it is a variation entry and in `EMOJI_PRESENTATION_RANGES`."
    #[must_use]
    pub const fn is_emoji_default(self) -> bool {
        self.entry.is_some() && self.emoji_presentation
    }
}

/// What the two data files say of a character.
#[must_use]
pub fn properties(character: u32) -> Properties {
    PROPERTIES[character as usize]
}

/// The number of variation entries.
#[must_use]
pub fn entries() -> usize {
    internals::VARIATION_ENTRIES.len()
}

/// The code point of a variation entry.
#[must_use]
pub fn entry(number: u64) -> Option<u32> {
    let entry = internals::VARIATION_ENTRIES.get(usize::try_from(number).ok()?)?;
    Some(u32::from(*entry))
}

/// The properties of every code point.
static PROPERTIES: LazyLock<Vec<Properties>> = LazyLock::new(|| {
    let mut all = vec![Properties::default(); 0x11_0000];
    let mut each_in = |ranges: &[(char, char)], set: fn(&mut Properties)| {
        for &(first, last) in ranges {
            all[first as usize..=last as usize].iter_mut().for_each(set);
        }
    };
    each_in(internals::EMOJI_RANGES, |of| of.emoji = true);
    each_in(internals::EMOJI_PRESENTATION_RANGES, |of| {
        of.emoji_presentation = true
    });
    for &character in internals::EMOJI_MODIFIERS {
        all[character as usize].modifier = true;
    }
    for &character in internals::EMOJI_MODIFIER_BASES {
        all[character as usize].modifier_base = true;
    }
    for (number, &character) in (0..).zip(internals::VARIATION_ENTRIES) {
        all[character as usize].entry = Some(number);
    }
    all
});
