//! Texts in parts: the parts formatted and joined are the text formatted, and the totals add up.

use tilghorz::{Counts, LONGEST_TEXT, Policy, Refusal};

/// Pieces of drawn texts: plain text, bases, keycaps, modifiers, links, flags, and runs of selectors and of tags.
const PIECES: [&str; 16] = [
    "a",
    " ",
    "\n",
    "1",
    "\u{2764}",
    "\u{1F468}",
    "\u{231A}",
    "\u{20E3}",
    "\u{1F3FB}",
    "\u{200D}",
    "\u{1F1E6}",
    "\u{1F1FF}",
    "\u{FE0E}",
    "\u{FE0F}\u{FE0F}\u{FE0E}",
    "\u{E0067}\u{E0062}\u{E0065}",
    "\u{E007F}",
];

/// Draws numbers.
struct Draw(u64);

impl Draw {
    fn below(&mut self, most: usize) -> usize {
        self.0 = self
            .0
            .wrapping_mul(6_364_136_223_846_793_005)
            .wrapping_add(1_442_695_040_888_963_407);
        (self.0 >> 33) as usize % most
    }

    fn text(&mut self, pieces: usize) -> String {
        (0..pieces)
            .map(|_| PIECES[self.below(PIECES.len())])
            .collect()
    }
}

/// What a text becomes, part by part.
fn formatted(parts: &[&[u8]], policy: &Policy) -> Result<Vec<u8>, Refusal> {
    let mut joined = Vec::new();
    for part in parts {
        joined.extend_from_slice(&tilghorz::format(part, policy)?);
    }
    Ok(joined)
}

/// The totals of the parts, added.
fn totals(parts: &[&[u8]], policy: &Policy) -> Counts {
    let mut sums = Counts::default();
    for part in parts {
        sums += tilghorz::findings(part, policy).expect("a text").totals();
    }
    sums
}

#[test]
fn parts_of_every_length_format_to_the_whole() {
    let (mut draw, policy) = (Draw(7), Policy::default());
    let mut begins = [0; 2];
    for _ in 0..100 {
        let text = draw.text(60);
        let whole = tilghorz::format(text.as_bytes(), &policy).expect("a text");
        let whole_totals = totals(&[text.as_bytes()], &policy);
        for length in 0..60 {
            let parts: Vec<&[u8]> = tilghorz::parts(text.as_bytes(), length).collect();
            assert_eq!(parts.concat(), text.as_bytes());
            assert_eq!(formatted(&parts, &policy).expect("texts"), &*whole);
            assert_eq!(totals(&parts, &policy), whole_totals);
            for part in &parts[1..] {
                let part = str::from_utf8(part).expect("characters");
                begins[0] += usize::from(part.starts_with('\u{200D}'));
                begins[1] += usize::from(part.starts_with(['\u{1F1E6}', '\u{1F1FF}']));
            }
        }
    }
    // Cuts fall before links and before flags, also between two of them.
    assert!(begins.into_iter().all(|number| number > 1000), "{begins:?}");
}

#[test]
fn a_part_is_longer_only_where_no_cut_is_allowed() {
    let mut draw = Draw(8);
    for _ in 0..100 {
        let text = draw.text(60);
        for length in 1..60 {
            let mut start = 0;
            for part in tilghorz::parts(text.as_bytes(), length) {
                let end = start + part.len();
                let inner = tilghorz::cut(text.as_bytes(), start + length);
                if part.len() <= length {
                    assert_eq!(inner, Some(end));
                } else {
                    assert!(inner.is_none_or(|cut| cut <= start));
                    let before = tilghorz::cut(text.as_bytes(), end - length);
                    assert!(before.is_none_or(|cut| cut <= start));
                }
                start = end;
            }
            assert_eq!(start, text.len());
        }
    }
}

#[test]
fn the_first_part_that_is_refused_has_the_bad_place_of_the_text() {
    let (mut draw, policy) = (Draw(9), Policy::default());
    for _ in 0..300 {
        let mut text = draw.text(20).into_bytes();
        let at = draw.below(text.len());
        match draw.below(3) {
            0 => text[at] = draw.below(256).to_le_bytes()[0],
            1 => text.truncate(at),
            _ => drop(text.remove(at)),
        }
        let whole = tilghorz::format(&text, &policy);
        for length in [1, 2, 3, 5, 8, 13, 21] {
            let (mut start, mut refused) = (0, None);
            for part in tilghorz::parts(&text, length) {
                if let Err(Refusal::NotWellFormed { valid_up_to }) = tilghorz::format(part, &policy)
                {
                    refused.get_or_insert(start + valid_up_to);
                }
                start += part.len();
            }
            let refused = refused.map(|valid_up_to| Refusal::NotWellFormed { valid_up_to });
            assert_eq!(refused, whole.as_ref().err().copied(), "{text:X?} {length}");
        }
    }
}

#[test]
fn a_text_without_a_cut_is_one_part() {
    for tags in [1, 2, 1000, LONGEST_TEXT / 4 + 1] {
        let text = "\u{E0061}".repeat(tags);
        for length in [1, 7, 1 << 19] {
            let parts: Vec<&[u8]> = tilghorz::parts(text.as_bytes(), length).collect();
            assert_eq!(parts, [text.as_bytes()]);
        }
    }
    assert_eq!(tilghorz::parts(b"", 5).count(), 0);
}
