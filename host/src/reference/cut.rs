//! Where a text may be cut for two workers: document 02, (xiii).

use super::characters::{is_keycap, is_tag, properties, selector};
use super::utf8;
use crate::calls::Answer;

/// "whenever the second part is empty or begins with a character that is no selector, modifier, 20E3 or tag". The bytes
/// need not be well-formed: what counts is whether a well-formed character begins there.
#[must_use]
pub fn is_cut(bytes: &[u8], at: usize) -> bool {
    let second = &bytes[at..];
    let begins = |(character, _): (u32, usize)| {
        let is_selector = selector(character).is_some();
        let is_modifier = properties(character).modifier;
        !(is_selector || is_modifier || is_keycap(character) || is_tag(character))
    };
    second.is_empty() || utf8::first(second).is_some_and(begins)
}

/// The largest such cut at or below an offset, from the front: the last of all cuts that are not above it.
#[must_use]
pub fn cut(bytes: &[u8], offset: u64) -> Answer {
    let below = (0..=bytes.len()).take_while(|&at| at as u64 <= offset);
    let last = below.filter(|&at| is_cut(bytes, at)).last();
    last.map_or(Answer::NOTHING, |at| Answer::new(Answer::DONE, at as u64))
}

#[cfg(test)]
mod tests {
    use super::*;

    #[test]
    fn no_cut_is_before_a_keycap_or_inside_a_character() {
        let text = "1\u{20E3}\u{2764}".as_bytes();
        let cuts: Vec<_> = (0..=text.len()).filter(|&at| is_cut(text, at)).collect();
        assert_eq!(cuts, [0, 4, 7]);
        assert_eq!(cut(text, 3), Answer::new(0, 0));
        assert_eq!(cut(text, u64::MAX), Answer::new(0, 7));
    }

    #[test]
    fn a_tag_alone_has_no_cut_before_its_end() {
        let text = "\u{E0061}".as_bytes();
        assert_eq!(cut(text, 3), Answer::NOTHING);
        assert_eq!(cut(text, 4), Answer::new(0, 4));
        assert_eq!(cut(b"", 0), Answer::new(0, 0));
    }

    #[test]
    fn a_damaged_text_has_the_cuts_of_its_characters() {
        let answers = [0, 1, 2, 3].map(|offset| cut(b"1\xA31", offset).value);
        assert_eq!(answers, [0, 0, 2, 3]);
    }
}
