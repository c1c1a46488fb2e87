//! Items and findings as fields of a line, made from the crate's own nested structure. The head of a part of the
//! items says what they look like: [`crate::items::GRAMMAR`].

use std::fmt::Write;

use evfmt::scanner::{
    EmojiLike, EmojiModification, EmojiSequence, EmojiStem, EmojiTagRun, ZwjLink,
};
use evfmt::{Finding, Presentation, ScanItem, ScanKind};

use crate::beside::counts;

/// The tag that ends a complete tag modification.
const CANCEL_TAG: char = '\u{E007F}';

/// The character of a link.
const LINK: char = '\u{200D}';

/// The field of an item: its kind, span, tag report and nested structure.
#[must_use]
pub fn item(item: &ScanItem) -> String {
    let (kind, structure) = kind_and_structure(&item.kind);
    let report = if tags_complete(&item.kind) { "" } else { "!" };
    let span = &item.span;
    format!("{kind}{}-{}{report}{structure}", span.start, span.end)
}

/// The field of a finding: its span, counts, choices and replacements.
#[must_use]
pub fn finding(finding: &Finding) -> String {
    let decisions: Vec<Presentation> = finding.default_decisions().collect();
    let mut out = format!(
        "{}-{}:{}:",
        finding.span.start,
        finding.span.end,
        lettered(counts(finding.non_canonicality())),
    );
    let choices = choices(finding, decisions.len());
    assert_eq!(choices.len(), decisions.len(), "{:?}", finding.raw);
    for (default, [text, emoji]) in decisions.iter().zip(choices) {
        out.push(letter(*default));
        push_replacement(&mut out, '+', &text);
        push_replacement(&mut out, '+', &emoji);
    }
    push_replacement(&mut out, '=', &finding.default_canonical_replacement());
    for decisions in decision_lists(decisions.len()) {
        if let Some(replacement) = finding.canonical_replacement_with_decisions(&decisions) {
            push_replacement(&mut out, '=', &replacement);
        }
    }
    out
}

/// The two replacements, text and emoji, of each choice of a finding that has `length` choices. The crate's choices are
/// private. A choice is a unit, and a link stands between two units: so the choices are the parts in which the
/// finding's replacements with all text and with all emoji differ.
fn choices(finding: &Finding, length: usize) -> Vec<[String; 2]> {
    let with_all = |decision| {
        finding
            .canonical_replacement_with_decisions(&vec![decision; length])
            .unwrap_or_default()
    };
    let (text, emoji) = (with_all(Presentation::Text), with_all(Presentation::Emoji));
    let units = text.split(LINK).zip(emoji.split(LINK));
    units
        .filter(|(text, emoji)| text != emoji)
        .map(|(text, emoji)| [text.to_owned(), emoji.to_owned()])
        .collect()
}

/// The lists of `length` decisions that are tried besides the default ones.
fn decision_lists(length: usize) -> Vec<Vec<Presentation>> {
    use Presentation::{Emoji, Text};
    let mut lists = Vec::new();
    if length > 0 {
        lists.extend([vec![Text; length], vec![Emoji; length]]);
    }
    if length > 1 {
        lists.push([Emoji, Text].into_iter().cycle().take(length).collect());
    }
    lists
}

/// Adds a replacement after a sign, two hexadecimal digits a byte.
fn push_replacement(out: &mut String, sign: char, replacement: &str) {
    out.push(sign);
    out.push_str(&crate::hexadecimal(replacement));
}

/// The counts that are not 0, each after its letter.
fn lettered(counts: [usize; 8]) -> String {
    ['u', 'm', 'a', 'c', 'f', 'r', 'p', 'd']
        .into_iter()
        .zip(counts)
        .filter(|(_, count)| *count != 0)
        .map(|(letter, count)| format!("{letter}{count}"))
        .collect()
}

/// The letter of an item's kind, and its nested structure.
fn kind_and_structure(kind: &ScanKind) -> (char, String) {
    let mut out = String::new();
    let letter = match kind {
        ScanKind::UnsanctionedPresentationSelectors(selectors) => {
            push_selectors(&mut out, selectors);
            's'
        }
        ScanKind::EmojiSequence(EmojiSequence::LinksOnly(links)) => {
            push_links(&mut out, links);
            'l'
        }
        ScanKind::EmojiSequence(EmojiSequence::EmojiHeaded {
            first,
            joined,
            trailing_links,
            ..
        }) => {
            push_unit(&mut out, first);
            for part in joined {
                out.push('j');
                push_selectors(&mut out, &part.link.presentation_selectors_after_link);
                push_unit(&mut out, &part.emoji);
            }
            push_links(&mut out, trailing_links);
            'e'
        }
        ScanKind::Passthrough => 'p',
        other => unreachable!("a kind that document 01 does not have: {other:?}"),
    };
    (letter, out)
}

/// Adds links that join no unit.
fn push_links(out: &mut String, links: &[ZwjLink]) {
    for link in links {
        out.push('z');
        push_selectors(out, &link.presentation_selectors_after_link);
    }
}

/// Adds a unit.
fn push_unit(out: &mut String, unit: &EmojiLike) {
    match &unit.stem {
        EmojiStem::SingletonBase {
            base,
            presentation_selectors_after_base,
            ..
        } => {
            push_character(out, 'b', *base, presentation_selectors_after_base);
        }
        EmojiStem::Flag {
            first_ri,
            presentation_selectors_after_first_ri,
            second_ri,
            presentation_selectors_after_second_ri,
            ..
        } => {
            push_character(out, 'f', *first_ri, presentation_selectors_after_first_ri);
            push_character(out, ',', *second_ri, presentation_selectors_after_second_ri);
        }
        other => unreachable!("a stem that document 01 does not have: {other:?}"),
    }
    for modification in &unit.modifiers {
        push_modification(out, modification);
    }
}

/// Adds a modification.
fn push_modification(out: &mut String, modification: &EmojiModification) {
    match modification {
        EmojiModification::EmojiModifier {
            modifier,
            presentation_selectors_after_modifier,
            ..
        } => push_character(out, 'm', *modifier, presentation_selectors_after_modifier),
        EmojiModification::EnclosingKeycap {
            presentation_selectors_after_keycap,
            ..
        } => {
            out.push('k');
            push_selectors(out, presentation_selectors_after_keycap);
        }
        EmojiModification::TagModifier(runs) => {
            out.push('g');
            for run in runs {
                push_tag_run(out, run);
            }
        }
        other => unreachable!("a modification that document 01 does not have: {other:?}"),
    }
}

/// Adds a run of tags.
fn push_tag_run(out: &mut String, run: &EmojiTagRun) {
    out.push('r');
    out.push_str(&crate::hexadecimal(&run.tag.iter().collect::<String>()));
    push_selectors(out, &run.presentation_selectors_after_tag);
}

/// Adds a character after a letter, and the selectors after it.
fn push_character(out: &mut String, letter: char, character: char, selectors: &[Presentation]) {
    // Writing to a string does not fail.
    let _ = write!(out, "{letter}{:05X}", u32::from(character));
    push_selectors(out, selectors);
}

/// Adds a run of selectors: the letters of the first two, and how many there are; nothing where there is none.
fn push_selectors(out: &mut String, selectors: &[Presentation]) {
    if !selectors.is_empty() {
        out.extend(selectors.iter().copied().take(2).map(letter));
        out.push_str(&selectors.len().to_string());
    }
}

/// The letter of a selector.
const fn letter(presentation: Presentation) -> char {
    match presentation {
        Presentation::Text => 't',
        Presentation::Emoji => 'e',
    }
}

/// Whether every tag modification of an item is complete: document 02, (i). The crate has no such report.
fn tags_complete(kind: &ScanKind) -> bool {
    let ScanKind::EmojiSequence(EmojiSequence::EmojiHeaded { first, joined, .. }) = kind else {
        return true;
    };
    std::iter::once(first)
        .chain(joined.iter().map(|part| &part.emoji))
        .flat_map(|unit| &unit.modifiers)
        .all(|modification| match modification {
            EmojiModification::TagModifier(runs) => {
                is_tag_sequence(&runs.iter().flat_map(|run| &run.tag).collect::<Vec<_>>())
            }
            _ => true,
        })
}

/// "One or more of E0020 to E007E and then one E007F": the first cancel tag is the last tag, and not the first.
fn is_tag_sequence(tags: &[&char]) -> bool {
    let cancel = tags.iter().position(|&&tag| tag == CANCEL_TAG);
    cancel.is_some_and(|place| 0 < place && place + 1 == tags.len())
}
