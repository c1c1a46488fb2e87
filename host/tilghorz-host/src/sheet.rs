//! What is wrong with a policy sheet, in words for a person. The library says at which byte; this module says why.

use std::fmt::Write;

use tilghorz::Refusal;

use crate::source::line_of;

/// The lines of a sheet.
const LINES: usize = 4;
/// The most digits of a code point.
const MOST_DIGITS: usize = 6;

/// What a refusal of a sheet says of its place: the line, the column, and what is wrong there. Nothing if it has no place.
pub fn explanation(sheet: &[u8], refusal: Refusal) -> String {
    let (offset, wrong) = match refusal {
        Refusal::NotASheet { offset } => (offset, form_error(sheet, offset)),
        Refusal::NotAnEntry { offset } => (offset, no_entry(sheet, offset)),
        _ => return String::new(),
    };
    let (line, column) = (line_of(sheet, offset), 1 + line_before(sheet, offset).len());
    format!(", in line {line}, column {column}: {wrong}")
}

/// The bytes of the offset's line that are before the offset.
fn line_before(sheet: &[u8], offset: usize) -> &[u8] {
    last_part(&sheet[..offset], b'\n')
}

/// What is after the last such byte, or everything.
fn last_part(bytes: &[u8], separator: u8) -> &[u8] {
    let mut parts = bytes.rsplit(|byte| *byte == separator);
    parts.next().unwrap_or_default()
}

/// Whether a byte is a digit of a sheet.
const fn is_digit(byte: u8) -> bool {
    matches!(byte, b'0'..=b'9' | b'A'..=b'F')
}

/// What does not follow the form at the offset of refusal 11. All before it does.
fn form_error(sheet: &[u8], offset: usize) -> String {
    if line_of(sheet, offset) > LINES {
        return "this is after the fourth line, and a sheet has four".to_owned();
    }
    let Some(&byte) = sheet.get(offset) else {
        return "the sheet breaks off: it has four lines, each ended by a line feed".to_owned();
    };
    let piece = last_part(line_before(sheet, offset), b',');
    let digits = last_part(piece, b'-');
    match byte {
        b',' | b'-' | b'\n' => separator_error(byte, sheet, offset, piece, digits),
        _ if is_digit(byte) && digits.len() >= MOST_DIGITS => {
            "a seventh digit: a code point has two or four to six".to_owned()
        }
        // A digit at the start of a piece follows the form, so the whole piece is meant.
        _ if is_digit(byte) => {
            let rest = &sheet[offset..];
            let end = rest.iter().position(|byte| b",\n".contains(byte));
            let range = String::from_utf8_lossy(&rest[..end.unwrap_or(rest.len())]);
            format!("the range {range} ends below its start")
        }
        _ => byte_error(byte),
    }
}

/// What is wrong with a comma, a dash or a line feed.
fn separator_error(byte: u8, sheet: &[u8], offset: usize, piece: &[u8], digits: &[u8]) -> String {
    let is_range = digits.len() < piece.len();
    match (digits.len(), byte) {
        (0, _) if is_range => "a range without its end".to_owned(),
        (0, b'-') => "a range without its start".to_owned(),
        (0, b'\n') => "a comma at the end of the line".to_owned(),
        (0, _) if line_before(sheet, offset).is_empty() => {
            "a comma at the start of the line".to_owned()
        }
        (0, _) => "nothing between two commas".to_owned(),
        (1, _) => "one digit: a code point has two or four to six".to_owned(),
        (3, _) => "three digits: a code point has two or four to six".to_owned(),
        _ => "a second dash in a range".to_owned(),
    }
}

/// What is wrong with a byte that no sheet has.
fn byte_error(byte: u8) -> String {
    match byte {
        b'a'..=b'f' => "a digit in lower case: digits are 0 to 9 and A to F".to_owned(),
        b' ' | b'\t' => "a blank: a sheet has none".to_owned(),
        b'\r' => "a carriage return: a line ends with a line feed alone".to_owned(),
        _ => {
            let mut wrong = format!("the byte {byte:02X}");
            if byte.is_ascii_graphic() {
                // Writing to a string does not fail.
                let _ = write!(wrong, " ({})", char::from(byte));
            }
            wrong + ": a sheet has digits, commas, dashes and line feeds"
        }
    }
}

/// Which code point is no entry, at the offset of refusal 12.
fn no_entry(sheet: &[u8], offset: usize) -> String {
    let digits = sheet[offset..].iter().take_while(|byte| is_digit(**byte));
    let code_point: String = digits.map(|byte| char::from(*byte)).collect();
    format!("{code_point} has no variation sequence, so a policy cannot speak of it")
}

#[cfg(test)]
mod tests {
    use super::*;

    /// What is said of a sheet that does not follow the form at an offset.
    fn said(sheet: &str, offset: usize) -> String {
        explanation(sheet.as_bytes(), Refusal::NotASheet { offset })
    }

    #[test]
    fn each_error_of_form_has_its_words() {
        for (sheet, offset, place, wrong) in [
            ("30,3\n", 4, "1, column 5", "one digit: "),
            ("\n276,30\n", 4, "2, column 4", "three digits: "),
            ("276-30", 3, "1, column 4", "three digits: "),
            ("0000030\n", 6, "1, column 7", "a seventh digit"),
            ("\n\na9\n\n", 2, "3, column 1", "a digit in lower case"),
            ("30, 31\n", 3, "1, column 4", "a blank"),
            ("30\r\n", 2, "1, column 3", "a carriage return"),
            ("30,,31\n", 3, "1, column 4", "nothing between two commas"),
            (
                ",31\n",
                0,
                "1, column 1",
                "a comma at the start of the line",
            ),
            (
                "\n31,\n",
                4,
                "2, column 4",
                "a comma at the end of the line",
            ),
            ("30-,", 3, "1, column 4", "a range without its end"),
            ("-30", 0, "1, column 1", "a range without its start"),
            ("30-31-32", 5, "1, column 6", "a second dash"),
            (
                "\n30,39-30\n",
                4,
                "2, column 4",
                "the range 39-30 ends below its start",
            ),
            ("39-30", 5, "1, column 6", "the sheet breaks off"),
            ("\n\n\n", 3, "4, column 1", "the sheet breaks off"),
            (
                "\n\n\n\n30",
                4,
                "5, column 1",
                "this is after the fourth line",
            ),
            ("39-30x", 5, "1, column 6", "the byte 78 (x)"),
            ("\u{FEFF}30\n", 0, "1, column 1", "the byte EF:"),
        ] {
            let expected = format!(", in line {place}: {wrong}");
            let said = said(sheet, offset);
            assert!(said.starts_with(&expected), "{sheet:?}: {said}");
        }
    }

    #[test]
    fn a_code_point_that_is_no_entry_is_named() {
        let refusal = Refusal::NotAnEntry { offset: 5 };
        let said = explanation(b"\n\n30-FFFFFF,30\n\n", refusal);
        let expected = ", in line 3, column 4: FFFFFF has no variation sequence, so a policy cannot speak of it";
        assert_eq!(said, expected);
        assert_eq!(explanation(b"", Refusal::TextTooLong), "");
    }
}
