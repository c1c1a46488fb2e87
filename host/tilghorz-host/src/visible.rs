//! Characters as `show` has them, and how many columns of a terminal they take.

use std::fmt::Write;

use crate::width_table::{FORMATS, MARKS, WIDE};

/// The columns from one tab stop to the next.
const TAB: usize = 8;

/// The ranges of characters that are shown by their code points, beside control characters and invisible format
/// characters: what is invisible for another reason, what joins its neighbours to one picture, and what ends a line.
const BY_CODE_POINT: [(char, char); 11] = [
    ('\u{34F}', '\u{34F}'),
    ('\u{115F}', '\u{1160}'),
    ('\u{17B4}', '\u{17B5}'),
    ('\u{180B}', '\u{180F}'),
    ('\u{2028}', '\u{2029}'),
    ('\u{20E3}', '\u{20E3}'),
    ('\u{3164}', '\u{3164}'),
    ('\u{FE00}', '\u{FE0F}'),
    ('\u{FFA0}', '\u{FFA0}'),
    ('\u{1F3FB}', '\u{1F3FF}'),
    ('\u{E0000}', '\u{E0FFF}'),
];

/// A character as it is shown.
pub struct Shown {
    /// How many columns it takes.
    pub columns: usize,
    /// Whether it is shown by its code point.
    pub by_code_point: bool,
}

/// Whether a character is in a set of the table of widths.
fn is_in(edges: &[u32], character: char) -> bool {
    edges.partition_point(|edge| *edge <= u32::from(character)) % 2 == 1
}

/// Whether a character is shown by its code point.
pub fn is_by_code_point(character: char) -> bool {
    let in_range = |(first, last): &(char, char)| (*first..=*last).contains(&character);
    !matches!(character, ' '..='~')
        && (character.is_control()
            || is_in(&FORMATS, character)
            || BY_CODE_POINT.iter().any(in_range))
}

/// Whether a character of a file name can mislead whoever reads it: a control character, the end of a line, or an invisible
/// format character. The two that join and part letters are harmless.
pub fn is_harmful(character: char) -> bool {
    const JOINERS: [char; 2] = ['\u{200C}', '\u{200D}'];
    const LINE_ENDS: [char; 2] = ['\u{2028}', '\u{2029}'];
    character.is_control()
        || LINE_ENDS.contains(&character)
        || !JOINERS.contains(&character) && is_in(&FORMATS, character)
}

/// How many columns a character takes that is shown as it is. Terminals differ; this is what most do.
fn columns_of(character: char) -> usize {
    if character.is_ascii() {
        1
    } else if is_in(&MARKS, character) {
        0
    } else {
        1 + usize::from(is_in(&WIDE, character))
    }
}

/// How many columns a character is counted for where a line is cut. Each counts for one at least.
pub fn room(character: char) -> usize {
    match character {
        '\t' => TAB,
        ' '..='~' => 1,
        _ if is_by_code_point(character) => {
            // Two brackets and four digits at least.
            2 + (u32::from(character).max(1).ilog2() as usize / 4 + 1).max(4)
        }
        _ => columns_of(character).max(1),
    }
}

/// Appends a character as it is shown at a column.
pub fn push(character: char, column: usize, out: &mut String) -> Shown {
    let length = out.len();
    if character == '\t' {
        let columns = TAB - column % TAB;
        out.extend(std::iter::repeat_n(' ', columns));
        return Shown {
            columns,
            by_code_point: false,
        };
    }
    if is_by_code_point(character) {
        // Writing to a string does not fail.
        let _ = write!(out, "<{:04X}>", u32::from(character));
        return Shown {
            columns: out.len() - length,
            by_code_point: true,
        };
    }
    out.push(character);
    Shown {
        columns: columns_of(character),
        by_code_point: false,
    }
}

/// A text as it is shown.
pub fn text(text: &str) -> String {
    let mut out = String::new();
    for character in text.chars() {
        push(character, 0, &mut out);
    }
    out
}

/// A line of bytes as it is shown, without its end. A byte that is not part of a character is shown by its two digits.
pub fn line(bytes: &[u8]) -> String {
    let bytes = bytes.strip_suffix(b"\n").unwrap_or(bytes);
    let bytes = bytes.strip_suffix(b"\r").unwrap_or(bytes);
    let mut out = String::new();
    let mut column = 0;
    for chunk in bytes.utf8_chunks() {
        for character in chunk.valid().chars() {
            column += push(character, column, &mut out).columns;
        }
        for byte in chunk.invalid() {
            let digits = format!("<{byte:02X}>");
            column += digits.len();
            out.push_str(&digits);
        }
    }
    out
}

#[cfg(test)]
mod tests {
    use super::*;

    #[test]
    fn what_is_invisible_is_shown() {
        assert_eq!(
            text("1\u{FE0E}\u{20E3}\u{1B}[31m"),
            "1<FE0E><20E3><001B>[31m"
        );
        assert_eq!(
            text("\u{E0061}\u{202E}\u{200D}\u{85}"),
            "<E0061><202E><200D><0085>"
        );
    }

    #[test]
    fn columns_are_those_of_most_terminals() {
        let columns = |text: &str| {
            let mut column = 0;
            for character in text.chars() {
                column += push(character, column, &mut String::new()).columns;
            }
            column
        };
        assert_eq!(columns("abc"), 3);
        assert_eq!(columns("a\tb"), 9);
        assert_eq!(columns("\u{2764}\u{FE0F}"), 7);
        assert_eq!(columns("\u{1F600}\u{4E2D}"), 4);
        assert_eq!(columns("e\u{301}"), 1);
        assert_eq!(columns("\u{1F1E9}\u{1F1EA}"), 2);
    }

    #[test]
    fn columns_are_those_of_unicode() {
        const TWO: &str = "\u{1F004}\u{1F0CF}\u{1F18E}\u{1F201}\u{1F21A}\u{1F250}\u{231A}\u{1F600}\
                           \u{4E2D}\u{FF01}\u{1100}\u{3FFFD}";
        const ONE: &str = "a\u{A9}\u{2764}\u{1F321}\u{1F336}\u{1F54A}\u{1F5E8}\u{1F6E0}\
                           \u{915}\u{93E}\u{E01}\u{5D0}\u{FF66}\u{600}";
        // Marks of Latin, Devanagari, Thai, Hebrew, Arabic and kana, and medial and final Hangul jamo.
        const NONE: &str = "\u{301}\u{902}\u{94D}\u{962}\u{E31}\u{E48}\u{5C1}\u{5C7}\u{670}\u{6DC}\u{6E4}\
                            \u{3099}\u{309A}\u{1161}\u{11A8}\u{D7B0}";
        for (text, columns) in [(TWO, 2), (ONE, 1), (NONE, 0)] {
            for character in text.chars() {
                assert_eq!(
                    columns_of(character),
                    columns,
                    "{:04X}",
                    u32::from(character)
                );
            }
        }
    }

    #[test]
    fn the_room_of_a_character_is_what_it_takes() {
        for character in
            "a\u{1}\u{1B}\u{AD}\u{FE0F}\u{4E2D}\u{E0061}\u{10FFFF}\u{100000}\u{2764}".chars()
        {
            let shown = push(character, 0, &mut String::new());
            assert_eq!(room(character), shown.columns, "{character:?}");
        }
        assert_eq!((room('\t'), room('\u{301}'), room('\0')), (8, 1, 6));
    }

    #[test]
    fn the_tables_ascend_and_share_no_character() {
        for edges in [&WIDE[..], &MARKS, &FORMATS] {
            assert!(edges.is_sorted_by(|one, next| one < next));
            assert_eq!(edges.len() % 2, 0);
        }
        for character in '\0'..=char::MAX {
            let sets = [&WIDE[..], &MARKS, &FORMATS].map(|edges| is_in(edges, character));
            assert!(sets.into_iter().filter(|is_in| *is_in).count() <= 1);
        }
    }
}
