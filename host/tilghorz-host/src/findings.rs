//! The findings of a text, a part of the text at a time, and what is said of one.
//!
//! A table of all findings has 112 bytes for each, and a text can have one for every two bytes. So a text is listed in parts. A
//! part ends after a line feed, which no finding contains, or where its last item starts: what comes after a part cannot change
//! the items before its last one.

use std::array;
use std::collections::VecDeque;

use tilghorz::{Counts, Finding, Policy, Refusal};

use crate::help::Topic;
use crate::visible;

/// How many bytes a part has at most, unless one item is longer.
const PART: usize = 1 << 16;

/// The findings that are left of a text.
pub struct Findings<'a> {
    text: &'a [u8],
    policy: &'a Policy,
    /// How much of the text has been listed: bytes, characters and UTF-16 units.
    listed: [usize; 3],
    /// Those that were listed and not yet taken.
    ready: VecDeque<Finding>,
}

impl<'a> Findings<'a> {
    /// The findings of a text, or the refusal of listing them.
    pub fn of(text: &'a [u8], policy: &'a Policy) -> Result<Self, Refusal> {
        // This call makes the tests on the whole text, and lists nothing.
        let first = tilghorz::nearest(text, policy, 0)?;
        let listed = first.map_or(text.len(), |_| 0);
        Ok(Self {
            text,
            policy,
            listed: [listed, 0, 0],
            ready: VecDeque::new(),
        })
    }

    /// The next finding, which stays.
    pub fn peek(&mut self) -> Option<&Finding> {
        while self.ready.is_empty() && self.listed[0] < self.text.len() {
            self.list_part();
        }
        self.ready.front()
    }

    /// The next finding, if it starts before an offset.
    pub fn next_before(&mut self, offset: usize) -> Option<Finding> {
        let starts_before = self.peek().is_some_and(|finding| finding.start < offset);
        starts_before.then(|| self.ready.pop_front()).flatten()
    }

    /// Lists the next part.
    fn list_part(&mut self) {
        let rest = &self.text[self.listed[0]..];
        let part = first_part(rest);
        // The whole text was tested, so no part of it is refused.
        if let Ok(table) = tilghorz::findings(part, self.policy) {
            let [bytes, characters, units] = self.listed;
            self.ready.extend(table.iter().map(|mut finding| {
                finding.start += bytes;
                finding.end += bytes;
                finding.char_start += characters;
                finding.char_end += characters;
                finding.utf16_start += units;
                finding.utf16_end += units;
                finding
            }));
        }
        let listed = self.listed.iter_mut().zip(lengths(part));
        listed.for_each(|(listed, length)| *listed += length);
    }
}

impl Iterator for Findings<'_> {
    type Item = Finding;

    fn next(&mut self) -> Option<Finding> {
        self.next_before(usize::MAX)
    }
}

/// The first part of a text.
fn first_part(text: &[u8]) -> &[u8] {
    let mut most = PART;
    while most < text.len() {
        let part = &text[..character_start(text, most)];
        if let Some(line_feed) = part.iter().rposition(|byte| *byte == b'\n') {
            return &text[..=line_feed];
        }
        // An item that goes on up to the end of the part may be longer than the part.
        let items = tilghorz::items(part).ok();
        let last = items.and_then(|items| items.get(items.len().checked_sub(1)?));
        match last {
            Some(last) if last.start > 0 => return &text[..last.start],
            _ => most *= 2,
        }
    }
    text
}

/// The start of the character at an offset of a text.
fn character_start(text: &[u8], offset: usize) -> usize {
    let is_start = |at: &usize| text[*at] & 0xC0 != 0x80;
    (0..=offset).rev().find(is_start).unwrap_or(0)
}

/// How many bytes, characters and UTF-16 units a text has.
fn lengths(text: &[u8]) -> [usize; 3] {
    let characters = text.iter().filter(|byte| **byte & 0xC0 != 0x80).count();
    let pairs = text.iter().filter(|byte| **byte >= 0xF0).count();
    [text.len(), characters, characters + pairs]
}

/// The counts that are not 0, in words.
pub fn in_words(counts: &Counts) -> String {
    let mut words = String::new();
    for (name, count) in counts.named().filter(|(_, count)| *count > 0) {
        let comma = if words.is_empty() { "" } else { ", " };
        words = words + comma + &counted(name, count);
    }
    words
}

/// A count with its name.
pub fn counted(name: &str, count: usize) -> String {
    let name = match (name, count) {
        ("decisions", 1) => "decision",
        _ => name,
    };
    format!("{count} {name}")
}

/// What each count means, in plain words, and an example: the help on findings.
pub fn reasons() -> [(String, &'static str); 8] {
    let mut entries = Topic::Findings.entries();
    array::from_fn(|_| {
        let mut lines = entries.next().map_or_else(Vec::new, |entry| entry.lines);
        let example = lines.pop().unwrap_or_default();
        (lines.join(" "), example)
    })
}

/// What formatting makes of a finding. Its bytes are an item of their own, so they are formatted alone.
pub fn replacement(finding: &Finding, text: &[u8], policy: &Policy) -> Option<String> {
    let bytes = text.get(finding.span())?;
    let formatted = tilghorz::format(bytes, policy).ok()?;
    String::from_utf8(formatted.into_owned()).ok()
}

/// What a finding becomes, as it is shown. What is long is cut.
pub fn becomes(replacement: &str) -> String {
    const MOST: usize = 60;
    if replacement.is_empty() {
        return "becomes nothing".to_owned();
    }
    let mut out = String::from("becomes ");
    let mut characters = replacement.chars();
    for character in characters.by_ref().take(MOST) {
        visible::push(character, 0, &mut out);
    }
    if !characters.as_str().is_empty() {
        out.push_str("...");
    }
    out
}

#[cfg(test)]
mod tests {
    use super::*;

    /// The findings in parts must be those of the whole text.
    fn compare(text: &str) {
        let policy = Policy::default();
        let whole = tilghorz::findings(text.as_bytes(), &policy).expect("a text");
        let parts = Findings::of(text.as_bytes(), &policy).expect("a text");
        assert!(whole.iter().eq(parts), "{} bytes", text.len());
    }

    #[test]
    fn findings_in_parts_are_those_of_the_text() {
        let pieces = [
            "\u{A9}",
            "1\u{FE0E}\u{20E3}",
            "a\u{FE0F}\n",
            "\u{2764}\u{FE0F}\u{200D}\u{1F525}",
            "\u{1F469}\u{200D}",
            "\u{FE0F}",
            "\u{1F3F4}\u{E0067}\u{E007F}",
            "plain \u{4E2D} ",
        ];
        let mut seed = 7_u64;
        for number in [1, 10, 20_000, 60_000] {
            let mut text = String::new();
            for _ in 0..number {
                seed = seed.wrapping_mul(6_364_136_223_846_793_005).wrapping_add(1);
                text.push_str(pieces[(seed >> 33) as usize % pieces.len()]);
            }
            compare(&text);
            compare(&text.replace('\n', ""));
        }
        compare("");
        compare(&"\u{FE0F}".repeat(PART));
        compare(&"\u{A9}".repeat(PART));
        compare(&format!("{}\u{2764}\u{FE0F}", "a".repeat(PART - 3)));
        compare(&format!("{}\u{2764}\u{FE0F}", "a".repeat(PART - 4)));
    }

    #[test]
    fn a_refusal_is_that_of_the_text() {
        let refusal = Findings::of(b"a\n\xFF", &Policy::default()).err();
        assert_eq!(refusal, Some(Refusal::NotWellFormed { valid_up_to: 2 }));
    }

    #[test]
    fn every_count_has_its_reason_and_an_example() {
        let names: Vec<&str> = Topic::Findings.entries().map(|entry| entry.head).collect();
        assert_eq!(names, Counts::NAMES);
        for (reason, example) in reasons() {
            assert!(!reason.is_empty() && example.contains(" becomes "));
        }
    }

    #[test]
    fn a_long_replacement_is_cut() {
        assert_eq!(becomes(""), "becomes nothing");
        assert_eq!(becomes("1\u{FE0E}"), "becomes 1<FE0E>");
        let long = becomes(&"a".repeat(61));
        assert_eq!(long, format!("becomes {}...", "a".repeat(60)));
    }
}
