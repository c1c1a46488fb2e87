//! Places in a text, as the command line names them: an offset in bytes, or a line and a column.

use std::fmt::{self, Display, Formatter};
use std::str;

/// A place in a text.
#[derive(Debug, Clone, Copy, PartialEq, Eq)]
pub enum Place {
    /// An offset in bytes.
    Byte(usize),
    /// A line and a column, counted from 1. A column is a character.
    Line(usize, usize),
}

impl Display for Place {
    fn fmt(&self, out: &mut Formatter<'_>) -> fmt::Result {
        match self {
            Self::Byte(offset) => write!(out, "{offset}"),
            Self::Line(line, column) => write!(out, "{line}:{column}"),
        }
    }
}

impl Place {
    /// The place of an option's value: `OFFSET` or `LINE:COLUMN`.
    pub fn of(option: &str, text: &str) -> Result<Self, String> {
        let wrong = || format!("{option} {text}: neither an offset in bytes nor LINE:COLUMN");
        let number = |word: &str| word.parse::<usize>().map_err(|_| wrong());
        let Some((line, column)) = text.split_once(':') else {
            return number(text).map(Self::Byte);
        };
        match (number(line)?, number(column)?) {
            (0, _) | (_, 0) => Err(format!("{option} {text}: lines and columns begin at 1")),
            (line, column) => Ok(Self::Line(line, column)),
        }
    }

    /// Its offset in a text, or nothing where the text has no such line or column. The column after the last character of
    /// a line is the end of the line. In a text that is not UTF-8 a line and a column are offset 0: such a text is refused.
    pub fn offset(self, text: &[u8]) -> Option<usize> {
        let (line, column) = match self {
            Self::Byte(offset) => return Some(offset),
            Self::Line(line, column) => (line, column),
        };
        let Ok(text) = str::from_utf8(text) else {
            return Some(0);
        };
        let mut start = 0;
        for part in text.split('\n').take(line - 1) {
            start += part.len() + 1;
        }
        let line = text.get(start..)?.split('\n').next()?;
        let mut ends = line.char_indices().map(|(at, _)| at).chain([line.len()]);
        ends.nth(column - 1).map(|at| start + at)
    }
}

/// Lines and columns of offsets in a text, counted from 1. From one offset to a later one only what is between is read.
pub struct Positions<'a> {
    text: &'a [u8],
    offset: usize,
    line: usize,
    column: usize,
}

impl<'a> Positions<'a> {
    /// At the start of a text.
    pub fn new(text: &'a [u8]) -> Self {
        Self {
            text,
            offset: 0,
            line: 1,
            column: 1,
        }
    }

    /// The line and the column of an offset.
    pub fn of(&mut self, offset: usize) -> (usize, usize) {
        if offset < self.offset {
            *self = Self::new(self.text);
        }
        for byte in self.text.iter().take(offset).skip(self.offset) {
            match byte {
                b'\n' => (self.line, self.column) = (self.line + 1, 1),
                0x80..=0xBF => {}
                _ => self.column += 1,
            }
        }
        self.offset = offset;
        (self.line, self.column)
    }
}

#[cfg(test)]
mod tests {
    use super::*;

    #[test]
    fn a_place_is_read() {
        assert_eq!(Place::of("--at", "12"), Ok(Place::Byte(12)));
        assert_eq!(Place::of("--at", "3:1"), Ok(Place::Line(3, 1)));
        for wrong in ["", "x", "1:", ":1", "1:2:3", "-1", "0:1", "1:0"] {
            assert!(Place::of("--at", wrong).is_err(), "{wrong}");
        }
    }

    #[test]
    fn a_line_and_a_column_have_an_offset() {
        let text = "ab\n\u{2764}\u{FE0F}c\n";
        let offset = |line, column| Place::Line(line, column).offset(text.as_bytes());
        assert_eq!(
            [offset(1, 1), offset(1, 3), offset(1, 4)],
            [Some(0), Some(2), None]
        );
        assert_eq!(
            [offset(2, 1), offset(2, 2), offset(2, 3), offset(2, 4)],
            [Some(3), Some(6), Some(9), Some(10)]
        );
        assert_eq!(
            [offset(3, 1), offset(3, 2), offset(4, 1)],
            [Some(11), None, None]
        );
        assert_eq!(Place::Byte(99).offset(b"a"), Some(99));
        assert_eq!(Place::Line(1, 1).offset(b"\xFF"), Some(0));
    }

    #[test]
    fn positions_are_those_of_places() {
        let text = "ab\n\u{2764}\u{FE0F}c\n\nd";
        let mut positions = Positions::new(text.as_bytes());
        let offsets = || text.char_indices().map(|(at, _)| at).chain([text.len()]);
        for at in offsets().chain(offsets().rev()) {
            let (line, column) = positions.of(at);
            assert_eq!(Place::Line(line, column).offset(text.as_bytes()), Some(at));
        }
    }
}
