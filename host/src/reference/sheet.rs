//! Document 02, (vi): policy sheets, which bytes are one, what it means, and the sheet that is written for a policy.
//!
//! The sentences on sheets, lines, pieces and code points are tested on whole slices: a sheet is cut at each 0A, a line at
//! each comma, and a piece at its dash. For each of them there is a second test: whether some sheet, line, piece or code
//! point begins with the bytes.

use super::calls::{Draft, LONGEST_TEXT};
use super::characters;
use super::policy::{self, Policy};
use crate::calls::Answer;

/// What ends a line.
const LINE_END: u8 = 0x0A;
/// The number of lines.
const LINES: usize = 4;
/// The most digits of a code point.
const MOST_DIGITS: usize = 6;

/// A piece of a line: a code point, or a range.
#[derive(Debug, Clone, Copy, PartialEq, Eq)]
pub struct Piece<'a> {
    /// The number of its line, from 0 on.
    pub line: usize,
    /// The offset of its first byte.
    pub offset: usize,
    /// The digits of the code point, or of the start of the range.
    pub start: &'a [u8],
    /// The digits of the end of the range.
    pub end: Option<&'a [u8]>,
}

/// Reading a sheet: refusals 1, 11 and 12, or the bytes of its policy.
#[must_use]
pub fn read(sheet: &[u8]) -> Draft {
    if sheet.len() > LONGEST_TEXT {
        return Draft::Refused(Answer::new(1, 0));
    }
    if let Some(offset) = form_error(sheet) {
        return Draft::Refused(Answer::new(11, offset as u64));
    }
    if let Some(offset) = no_entry(sheet) {
        return Draft::Refused(Answer::new(12, offset as u64));
    }
    Draft::bytes(meaning(sheet))
}

/// Writing a policy's sheet: the policy's refusal, or the sheet.
#[must_use]
pub fn write(policy: &[u8]) -> Draft {
    let policy = match Policy::read(policy) {
        Ok(policy) => policy,
        Err(refusal) => return Draft::Refused(refusal),
    };
    let lines = policy.sets().map(|set| line(set) + "\n");
    Draft::bytes(lines.concat().into_bytes())
}

/// The offset of refusal 11: "of two such errors the smaller offset is given". A range that runs down is looked for before
/// the first byte with which no sheet goes on; after that byte every offset is greater.
#[must_use]
pub fn form_error(sheet: &[u8]) -> Option<usize> {
    let length = beginning(sheet);
    let down = running_down(&sheet[..length]);
    down.or_else(|| (!is_sheet(sheet)).then_some(length))
}

/// "A sheet has four lines, each ended by 0A." A range that runs down passes.
#[must_use]
pub fn is_sheet(bytes: &[u8]) -> bool {
    let mut lines = bytes.split(|&byte| byte == LINE_END);
    // What stands after the last 0A.
    lines.next_back() == Some(&[]) && lines.clone().count() == LINES && lines.all(is_line)
}

/// Whether some sheet begins with these bytes.
#[must_use]
pub fn begins_sheet(bytes: &[u8]) -> bool {
    let mut lines = bytes.split(|&byte| byte == LINE_END);
    let last = lines.next_back().unwrap_or_default();
    let ended = lines.clone().count();
    let last_begins = match ended {
        0..LINES => begins_line(last),
        LINES => last.is_empty(),
        _ => false,
    };
    last_begins && lines.all(is_line)
}

/// The length of the longest beginning with which some sheet begins. So it is "the offset of the first byte such that no
/// sheet begins with the bytes up to and including it, or the length". If a sheet begins with some bytes, it begins with
/// every beginning of them; so the length is found by halving.
#[must_use]
pub fn beginning(bytes: &[u8]) -> usize {
    if begins_sheet(bytes) {
        return bytes.len();
    }
    let (mut begins, mut does_not) = (0, bytes.len());
    while begins + 1 < does_not {
        let length = begins.midpoint(does_not);
        if begins_sheet(&bytes[..length]) {
            begins = length;
        } else {
            does_not = length;
        }
    }
    begins
}

/// "A range whose end is below its start is 11, at its start, if a comma or 0A closes it." Some sheet begins with the
/// bytes.
#[must_use]
pub fn running_down(bytes: &[u8]) -> Option<usize> {
    let last_closed = bytes.iter().rposition(|&byte| is_separator(byte))?;
    let runs_down = |piece: &Piece| piece.end.is_some_and(|end| value(end) < value(piece.start));
    let mut down = pieces(&bytes[..last_closed]).filter(runs_down);
    down.next().map(|piece| piece.offset)
}

/// The offset of refusal 12 in bytes that follow the form: "the first single code point or either end of a range that is
/// no variation entry, with its offset".
#[must_use]
pub fn no_entry(sheet: &[u8]) -> Option<usize> {
    let ends = pieces(sheet).flat_map(|piece| {
        let end = piece.end.map(|end| (piece.end_offset(), end));
        [Some((piece.offset, piece.start)), end]
    });
    let mut no_entries = ends.flatten().filter(|(_, digits)| entry(digits).is_none());
    no_entries.next().map(|(offset, _)| offset)
}

/// The bytes of the policy: "the sheet reader writes the tables' own version into it". Each line is a set, and "a range
/// includes only the variation entries inside it". The table is ascending, so these are the entries from that of the start to
/// that of the end.
fn meaning(sheet: &[u8]) -> Vec<u8> {
    let mut sets = [(); LINES].map(|()| vec![0; policy::words()]);
    for piece in pieces(sheet) {
        let first = entry(piece.start);
        let last = piece.end.map_or(first, entry);
        if let (Some(first), Some(last)) = (first, last) {
            for entry in first..=last {
                sets[piece.line][usize::from(entry / 64)] |= 1_u64 << (entry % 64);
            }
        }
    }
    let words = [vec![policy::version()], sets.concat()].concat();
    words.iter().flat_map(|word| word.to_le_bytes()).collect()
}

/// The pieces of bytes in which each line is empty or has whole pieces.
pub fn pieces(sheet: &[u8]) -> impl Iterator<Item = Piece<'_>> {
    let mut offset = 0;
    let lines = sheet.split(|&byte| byte == LINE_END).enumerate();
    let of_lines = lines.flat_map(|(line, bytes)| {
        let pieces = bytes.split(|&byte| byte == b',');
        pieces.map(move |piece| (line, piece))
    });
    of_lines.filter_map(move |(line, piece)| {
        let (start, end) = cut(piece);
        let piece = Piece {
            line,
            offset,
            start,
            end,
        };
        // One byte parts it from the next.
        offset += piece.length() + 1;
        (!start.is_empty()).then_some(piece)
    })
}

impl Piece<'_> {
    /// The number of its bytes.
    #[must_use]
    pub fn length(&self) -> usize {
        self.start.len() + self.end.map_or(0, |end| 1 + end.len())
    }

    /// The offset of a range's end.
    const fn end_offset(&self) -> usize {
        self.offset + self.start.len() + 1
    }
}

/// "A line is empty, or code points and ranges [..], comma between, no blanks."
fn is_line(line: &[u8]) -> bool {
    line.is_empty() || are_pieces(line)
}

/// Whether some line begins with these bytes.
fn begins_line(line: &[u8]) -> bool {
    match line.iter().rposition(|&byte| byte == b',') {
        None => begins_piece(line),
        Some(comma) => are_pieces(&line[..comma]) && begins_piece(&line[comma + 1..]),
    }
}

/// Whether the bytes are one or more pieces, with a comma between.
fn are_pieces(bytes: &[u8]) -> bool {
    bytes.split(|&byte| byte == b',').all(is_piece)
}

/// A code point, or a range "such as `2764` or `30-39`".
fn is_piece(piece: &[u8]) -> bool {
    let (start, end) = cut(piece);
    is_code_point(start) && end.is_none_or(is_code_point)
}

/// Whether some piece begins with these bytes.
fn begins_piece(piece: &[u8]) -> bool {
    match cut(piece) {
        (whole, None) => begins_code_point(whole),
        (start, Some(end)) => is_code_point(start) && begins_code_point(end),
    }
}

/// "A code point has two or four to six upper-case hexadecimal digits, of any value."
fn is_code_point(bytes: &[u8]) -> bool {
    matches!(bytes.len(), 2 | 4..=MOST_DIGITS) && bytes.iter().all(is_digit)
}

/// Whether some code point begins with these bytes.
fn begins_code_point(bytes: &[u8]) -> bool {
    bytes.len() <= MOST_DIGITS && bytes.iter().all(is_digit)
}

/// An upper-case hexadecimal digit.
const fn is_digit(byte: &u8) -> bool {
    matches!(byte, b'0'..=b'9' | b'A'..=b'F')
}

/// What closes a piece.
const fn is_separator(byte: u8) -> bool {
    byte == b',' || byte == LINE_END
}

/// A piece before its first dash, and after it if there is one.
fn cut(piece: &[u8]) -> (&[u8], Option<&[u8]>) {
    match piece.iter().position(|&byte| byte == b'-') {
        None => (piece, None),
        Some(dash) => (&piece[..dash], Some(&piece[dash + 1..])),
    }
}

/// The number of hexadecimal digits.
#[must_use]
pub fn value(digits: &[u8]) -> u32 {
    let number = |value: u32, digit: &u8| {
        let digit = char::from(*digit).to_digit(16).unwrap_or_default();
        16 * value + digit
    };
    digits.iter().fold(0, number)
}

/// The number of the variation entry with this code point.
fn entry(digits: &[u8]) -> Option<u16> {
    let character = char::from_u32(value(digits))?;
    characters::properties(character.into()).entry
}

/// The line of a character set: "ascending, each code point in the fewest digits allowed, and neighbouring entries of the
/// variation table joined into one range".
fn line(set: &[u64]) -> String {
    let is_member = |entry: &usize| (set[entry / 64] >> (entry % 64)) & 1 == 1;
    let members: Vec<usize> = (0..characters::entries()).filter(is_member).collect();
    let runs = members.chunk_by(|entry, next| entry + 1 == *next);
    let pieces = runs.map(|run| match run {
        [first, .., last] => format!("{}-{}", digits(*first), digits(*last)),
        _ => run.iter().map(|entry| digits(*entry)).collect(),
    });
    pieces.collect::<Vec<String>>().join(",")
}

/// The code point of a variation entry "in the fewest digits allowed", which are two or four to six.
fn digits(entry: usize) -> String {
    match characters::entry(entry as u64).unwrap_or_default() {
        code_point @ 0..=0xFF => format!("{code_point:02X}"),
        code_point => format!("{code_point:04X}"),
    }
}
