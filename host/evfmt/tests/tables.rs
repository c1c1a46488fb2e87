//! The tables that the build made of the data files.

use std::collections::HashSet;

use evfmt::internals;

/// The characters of a table of ranges.
fn members(ranges: &[(char, char)]) -> HashSet<char> {
    ranges
        .iter()
        .flat_map(|&(first, last)| first..=last)
        .collect()
}

#[test]
fn the_tables_have_the_known_lengths() {
    assert_eq!(internals::UNICODE_VERSION, "15.0");
    assert_eq!(internals::VARIATION_ENTRIES.len(), 354);
    assert_eq!(internals::EMOJI_RANGES.len(), 151);
    assert_eq!(internals::EMOJI_PRESENTATION_RANGES.len(), 81);
    assert_eq!(internals::EMOJI_MODIFIERS.len(), 5);
    assert_eq!(internals::EMOJI_MODIFIER_BASES.len(), 134);
    assert_eq!(internals::RI_RANGES, [('\u{1F1E6}', '\u{1F1FF}')]);
}

#[test]
fn character_tables_ascend() {
    for table in [
        internals::VARIATION_ENTRIES,
        internals::EMOJI_MODIFIERS,
        internals::EMOJI_MODIFIER_BASES,
    ] {
        assert!(table.is_sorted_by(|a, b| a < b));
    }
}

#[test]
fn ranges_ascend_and_do_not_touch() {
    for table in [
        internals::EMOJI_RANGES,
        internals::EMOJI_PRESENTATION_RANGES,
        internals::RI_RANGES,
    ] {
        assert!(table.iter().all(|(first, last)| first <= last));
        assert!(table.is_sorted_by(|a, b| u32::from(a.1) + 1 < u32::from(b.0)));
    }
}

#[test]
fn lookups_agree_with_the_tables() {
    let entries: HashSet<char> = internals::VARIATION_ENTRIES.iter().copied().collect();
    let presentation = members(internals::EMOJI_PRESENTATION_RANGES);
    let emoji = members(internals::EMOJI_RANGES);
    let regional_indicators = members(internals::RI_RANGES);
    for character in '\0'..=char::MAX {
        let is_entry = entries.contains(&character);
        let is_presentation = presentation.contains(&character);
        assert_eq!(internals::has_variation_sequence(character), is_entry);
        assert_eq!(
            internals::is_emoji_default(character),
            is_entry && is_presentation
        );
        assert_eq!(
            internals::is_text_default(character),
            is_entry && !is_presentation
        );
        assert_eq!(internals::is_emoji(character), emoji.contains(&character));
        assert_eq!(
            internals::is_ri(character),
            regional_indicators.contains(&character)
        );
    }
}

/// What document 01 says of the tables, and that every entry, presentation character and base is emoji.
#[test]
fn the_tables_fit_each_other() {
    for character in '\0'..=char::MAX {
        let has_entry = internals::has_variation_sequence(character);
        let is_emoji = internals::is_emoji(character);
        if internals::is_emoji_modifier(character) || internals::is_ri(character) {
            assert!(is_emoji && !has_entry, "{character:?}");
        }
        if has_entry || internals::is_emoji_modifier_base(character) {
            assert!(is_emoji, "{character:?}");
        }
        let is_selector = evfmt::Presentation::from_selector(character).is_some();
        if is_selector
            || internals::is_tag(character)
            || [internals::ZWJ, internals::COMBINING_ENCLOSING_KEYCAP].contains(&character)
        {
            assert!(!is_emoji, "{character:?}");
        }
    }
    for &(first, last) in internals::EMOJI_PRESENTATION_RANGES {
        assert!((first..=last).all(internals::is_emoji));
    }
}
