//! The texts of the parts of the items.

use std::convert::Infallible;

use evfmt::internals::{
    EMOJI_MODIFIER_BASES, EMOJI_MODIFIERS, EMOJI_RANGES, RI_RANGES, VARIATION_ENTRIES,
};

use crate::Random;
use crate::comparison::texts::every_text;
use crate::sequences::well_known;

/// Document 01's worked texts in order, its example for the programs, and a shortcode, which is plain.
#[must_use]
pub fn worked() -> Vec<String> {
    [
        "",
        "1\u{FE0E}",
        "1\u{20E3}",
        "\u{231A}\u{FE0F}",
        "\u{231A}\u{FE0E}\u{FE0F}",
        "\u{231A}\u{FE0F}\u{FE0E}",
        "\u{261D}\u{FE0F}\u{1F3FB}",
        "\u{261D}\u{FE0E}\u{1F3FB}",
        "\u{2764}\u{FE0F}\u{1F3FB}",
        "\u{2764}\u{FE0E}\u{E0061}",
        "\u{1F1E6}\u{FE0F}\u{1F1E7}",
        "\u{231A}\u{200D}\u{200D}\u{231A}",
        "a\u{FE0F}",
        "\u{20E3}",
        "1\u{FE0E} \u{2764}",
        "plain :heart: text",
    ]
    .map(str::to_owned)
    .into()
}

/// An alphabet of the classes: both selectors, the link, a regional indicator, a modifier, emoji of each default and
/// without one, with and without modifiers, a digit, the keycap, a tag, the cancel tag, and a character of none.
const CLASSES: [char; 15] = [
    'a',
    '\u{FE0E}',
    '\u{FE0F}',
    '\u{200D}',
    '\u{1F1E6}',
    '\u{1F3FB}',
    '\u{231A}',
    '\u{2764}',
    '\u{261D}',
    '\u{1F9D1}',
    '\u{1F680}',
    '1',
    '\u{20E3}',
    '\u{E0061}',
    '\u{E007F}',
];

/// A smaller alphabet, for texts of three characters.
const FEWER: [char; 10] = [
    'a',
    '\u{FE0E}',
    '\u{FE0F}',
    '\u{200D}',
    '\u{1F1E6}',
    '\u{1F3FB}',
    '\u{231A}',
    '\u{2764}',
    '\u{20E3}',
    '\u{E0061}',
];

/// The smallest alphabet, for texts of four characters: what runs and sequences are made of.
const FEWEST: [char; 5] = ['\u{FE0F}', '\u{200D}', '\u{1F1E6}', '\u{2764}', '\u{E007F}'];

/// Every text of one or two of `CLASSES`, of three of `FEWER`, and of four of `FEWEST`.
#[must_use]
pub fn short() -> Vec<String> {
    [
        every(&CLASSES, 1),
        every(&CLASSES, 2),
        every(&FEWER, 3),
        every(&FEWEST, 4),
    ]
    .concat()
}

/// Every text of `length` characters of an alphabet.
fn every(alphabet: &[char], length: usize) -> Vec<String> {
    let mut texts = Vec::new();
    let Ok(()) = every_text(alphabet, length, |text| {
        texts.push(text.to_owned());
        Ok::<(), Infallible>(())
    });
    texts
}

/// How many texts are drawn character by character, and how many part by part.
const DRAWN_TEXTS: usize = 400;
const DRAWN_SEQUENCES: usize = 260;

/// Characters of no class: among them are neighbours of each table's edges, and one of each length in bytes.
#[rustfmt::skip]
const OTHERS: [char; 20] = [
    '\0', '\n', ' ', 'a', ':', '\u{7F}', '\u{E9}', '\u{7FF}', '\u{800}', '\u{200C}',
    '\u{200E}', '\u{20E2}', '\u{4E2D}', '\u{FE0D}', '\u{FE10}', '\u{1F1E5}', '\u{1F400}', '\u{E001F}',
    '\u{E0080}', '\u{10FFFF}',
];

/// Texts that are drawn character by character, and then part by part.
#[must_use]
pub fn drawn() -> Vec<String> {
    let mut random = Random::new();
    let classes = drawn_classes();
    let mut texts: Vec<String> = (0..DRAWN_TEXTS)
        .map(|_| drawn_text(&mut random, &classes))
        .collect();
    texts.extend((0..DRAWN_SEQUENCES).map(|_| drawn_sequence(&mut random)));
    texts
}

/// A text of 3 to 14 characters: first a class is drawn, then a character of it.
fn drawn_text(random: &mut Random, classes: &[Vec<char>]) -> String {
    let length = 3 + random.below(12);
    (0..length)
        .map(|_| {
            let class = &classes[random.below(classes.len())];
            random.element(class)
        })
        .collect()
}

/// One to five units, each but the first after one link or two, and no more than two links after the last; each part
/// has its selectors.
fn drawn_sequence(random: &mut Random) -> String {
    let mut text = drawn_unit(random);
    for _ in 0..random.below(5) {
        for _ in 0..random.element(&[1, 1, 1, 1, 2]) {
            text.push('\u{200D}');
            text.push_str(&drawn_selectors(random));
        }
        text.push_str(&drawn_unit(random));
    }
    for _ in 0..random.element(&[0, 0, 0, 1, 2]) {
        text.push('\u{200D}');
        text.push_str(&drawn_selectors(random));
    }
    text
}

/// A unit: an emoji or two regional indicators, and up to two modifications.
fn drawn_unit(random: &mut Random) -> String {
    let mut text = String::new();
    let stem = match random.below(10) {
        0 => vec![
            random.element(&members(RI_RANGES)),
            random.element(&members(RI_RANGES)),
        ],
        1 => vec![random.element(&members(EMOJI_RANGES))],
        2 | 3 => vec![random.element(EMOJI_MODIFIER_BASES)],
        _ => vec![random.element(VARIATION_ENTRIES)],
    };
    for character in stem {
        text.push(character);
        text.push_str(&drawn_selectors(random));
    }
    for _ in 0..random.element(&[0, 0, 0, 0, 1, 1, 2]) {
        match random.below(3) {
            0 => text.push(random.element(EMOJI_MODIFIERS)),
            1 => text.push('\u{20E3}'),
            _ => text.push_str(&drawn_tags(random)),
        }
        text.push_str(&drawn_selectors(random));
    }
    text
}

/// Up to four tags, and often the one that ends them.
fn drawn_tags(random: &mut Random) -> String {
    let mut tags: String = (0..random.below(5))
        .map(|_| random.element(&['\u{E0020}', '\u{E0067}', '\u{E0062}', '\u{E007E}']))
        .collect();
    if tags.is_empty() || random.coin() {
        tags.push('\u{E007F}');
    }
    tags
}

/// No selector, or a run of them.
fn drawn_selectors(random: &mut Random) -> String {
    (0..random.element(&[0, 0, 0, 0, 0, 0, 0, 0, 0, 0, 1, 1, 1, 2, 3, 11]))
        .map(|_| random.element(&['\u{FE0E}', '\u{FE0F}']))
        .collect()
}

/// The classes to draw from; those that make sequences are there more than once.
fn drawn_classes() -> Vec<Vec<char>> {
    let selectors = vec!['\u{FE0E}', '\u{FE0F}'];
    let link = vec!['\u{200D}'];
    let tags: Vec<char> = ('\u{E0020}'..='\u{E007F}').collect();
    vec![
        selectors.clone(),
        selectors.clone(),
        selectors,
        link.clone(),
        link,
        members(RI_RANGES),
        EMOJI_MODIFIERS.to_vec(),
        EMOJI_MODIFIER_BASES.to_vec(),
        VARIATION_ENTRIES.to_vec(),
        VARIATION_ENTRIES.to_vec(),
        members(EMOJI_RANGES),
        vec!['\u{20E3}'],
        tags,
        vec!['\u{E007F}'],
        OTHERS.to_vec(),
    ]
}

/// Each character of the ranges.
fn members(ranges: &[(char, char)]) -> Vec<char> {
    ranges
        .iter()
        .flat_map(|&(first, last)| first..=last)
        .collect()
}

/// What a base of the variation sequences stands before, by turns.
const BEHIND_BASES: [&str; 7] = [
    "\u{FE0F}\u{1F3FB}",
    "\u{FE0E}\u{1F3FF}",
    "\u{20E3}",
    "\u{FE0F}\u{20E3}",
    "\u{E007F}",
    "\u{FE0F}\u{E007F}",
    "\u{FE0E}\u{E0061}",
];

/// Each base of the variation sequences bare, with FE0E, with FE0F, and before a modification; each modifier base with
/// FE0F before a modifier; and the well-known sequences, as they are and without selectors.
#[must_use]
pub fn unicode() -> Vec<String> {
    let variations = VARIATION_ENTRIES
        .iter()
        .zip(BEHIND_BASES.iter().cycle())
        .map(|(base, after)| format!("{base}{base}\u{FE0E}{base}\u{FE0F}{base}{after}"));
    let modified = EMOJI_MODIFIER_BASES
        .iter()
        .zip(EMOJI_MODIFIERS.iter().cycle())
        .map(|(base, modifier)| format!("{base}\u{FE0F}{modifier}"));
    let sequences = well_known().flat_map(|whole| {
        let bare = whole.replace(['\u{FE0E}', '\u{FE0F}'], "");
        [whole, bare]
    });
    variations.chain(modified).chain(sequences).collect()
}
