//! The faults that are planted into calls on sheets.

use super::faults::Fault;
use super::faulty::flip;
use crate::calls::{Answer, Calls};
use crate::reference::calls::{Draft, LONGEST_TEXT};
use crate::reference::sheet::{self, Piece};
use crate::reference::{characters, policy};

/// Calls on sheets with a planted fault.
pub struct FaultySheet<'a> {
    calls: &'a dyn Calls,
    fault: Fault,
}

impl<'a> FaultySheet<'a> {
    /// Plants a fault.
    #[must_use]
    pub const fn new(calls: &'a dyn Calls, fault: Fault) -> Self {
        Self { calls, fault }
    }

    /// Reads a sheet.
    pub fn read(&self, sheet: &[u8], out: &mut [u8]) -> Answer {
        if let Some(refusal) = self.refused_first(sheet, out) {
            return refusal;
        }
        // Another sheet that is refused by 11 has written nothing.
        if let Some(taken) = self.taken_for(sheet).filter(|taken| taken != sheet) {
            let answer = Answer::of_word(self.calls.read_sheet(&taken, out));
            if answer.number != 11 {
                return answer;
            }
        }
        let answer = Answer::of_word(self.calls.read_sheet(sheet, out));
        self.spoil(answer, out);
        self.other_refusal(sheet, answer).unwrap_or(answer)
    }

    /// Writes the sheet of a policy.
    pub fn write(&self, policy: &[u8], out: &mut [u8]) -> Answer {
        let mut policy = policy.to_vec();
        if self.fault == Fault::SheetOfUnusedBit && policy.len() == policy::bytes() {
            clear_unused(&mut policy);
        }
        let other = |piece: &Piece| match self.fault {
            Fault::Unjoined => entries(piece).map(written).collect::<Vec<_>>().join(","),
            Fault::CodePointsJoined => adjacent(piece),
            _ => format!("{:04X}", sheet::value(piece.start)) + &rest(piece),
        };
        if let Fault::Unjoined | Fault::CodePointsJoined | Fault::FourDigits = self.fault
            && let Draft::Writes { bytes, .. } = sheet::write(&policy)
        {
            return give(&Draft::bytes(with_pieces(&bytes, other)), out);
        }
        let mut answer = Answer::of_word(self.calls.write_sheet(&policy, out));
        if self.fault == Fault::SheetLength && answer.number == 8 {
            answer.value += 1;
        }
        answer
    }

    /// A refusal that comes before the right one.
    fn refused_first(&self, sheet: &[u8], out: &[u8]) -> Option<Answer> {
        let is_long = sheet.len() > LONGEST_TEXT;
        match self.fault {
            Fault::RoomBeforeSheet if !is_long && out.len() < policy::bytes() => {
                Some(Answer::new(8, policy::bytes() as u64))
            }
            Fault::SheetBeforeLimit if is_long => {
                sheet::form_error(sheet).map(|offset| Answer::new(11, offset as u64))
            }
            _ => None,
        }
    }

    /// The sheet that is read instead, if the fault is one of form or of meaning.
    fn taken_for(&self, sheet: &[u8]) -> Option<Vec<u8>> {
        Some(match self.fault {
            Fault::ThreeDigits => with_digits(sheet, |digits| match digits.len() {
                3 => [b"0", digits].concat(),
                _ => digits.to_vec(),
            }),
            Fault::SeventhDigit => with_digits(sheet, |digits| match digits {
                [b'0', six @ ..] if six.len() == 6 => six.to_vec(),
                _ => digits.to_vec(),
            }),
            Fault::SmallDigits => sheet.to_ascii_uppercase(),
            Fault::Blanks => sheet.iter().copied().filter(|byte| *byte != b' ').collect(),
            Fault::LastEnd => [sheet, b"\n"].concat(),
            Fault::FifthLine => lines(sheet).take(4).flatten().copied().collect(),
            Fault::LastComma => lines(sheet).flat_map(without_last_comma).collect(),
            Fault::RangeTurned => turned(sheet),
            Fault::EndsAlone if sheet::form_error(sheet).is_none() => {
                let comma = |byte: &u8| if *byte == b'-' { b',' } else { *byte };
                sheet.iter().map(comma).collect()
            }
            Fault::LastPiece if sheet::form_error(sheet).is_none() => {
                lines(sheet).flat_map(last_piece).copied().collect()
            }
            _ => return None,
        })
    }

    /// Changes what was written or not.
    fn spoil(&self, answer: Answer, out: &mut [u8]) {
        match (self.fault, answer.number) {
            (Fault::LineOrder, Answer::DONE) => {
                let [start, middle, end] = [1, 2, 3].map(|set| policy::place(set, 0).0);
                let (first, second) = out[start..end].split_at_mut(middle - start);
                first.swap_with_slice(second);
            }
            (Fault::SheetWithoutVersion, Answer::DONE) => out[..8].fill(0),
            (Fault::ByteAfterPolicy, Answer::DONE) => flip(out, answer.value as usize),
            (Fault::RefusedSheetWrites, 1..) => flip(out, 0),
            _ => {}
        }
    }

    /// The refusal that is answered instead.
    fn other_refusal(&self, sheet: &[u8], answer: Answer) -> Option<Answer> {
        let value = answer.value as usize;
        let refusal = |number, value: usize| Answer::new(number, value as u64);
        match (self.fault, answer.number) {
            (Fault::SheetOffset, 11) => Some(refusal(11, value + 1)),
            (Fault::DownUnclosed, 11) if value == sheet.len() => {
                let closed = [sheet, b","].concat();
                sheet::running_down(&closed).map(|offset| refusal(11, offset))
            }
            (Fault::DownAfterForm, 11) if !sheet::is_sheet(sheet) => {
                Some(refusal(11, sheet::beginning(sheet)))
            }
            (Fault::EntryBeforeForm, 11) => {
                let taken = &sheet[..sheet::beginning(sheet)];
                let closed = taken.iter().rposition(|byte| b",\n".contains(byte))?;
                sheet::no_entry(&taken[..closed]).map(|offset| refusal(12, offset))
            }
            (Fault::EndAtStart, 12) => {
                let before = sheet[..value].iter();
                let separator = before.rev().position(|byte| b",\n".contains(byte));
                Some(refusal(12, separator.map_or(0, |length| value - length)))
            }
            _ => None,
        }
    }
}

/// Writes what a draft says.
fn give(draft: &Draft, out: &mut [u8]) -> Answer {
    let (answer, written) = draft.with_room(out.len());
    out[..written.len()].copy_from_slice(written);
    answer
}

/// Clears the bits of the sets that no entry has.
fn clear_unused(policy: &mut [u8]) {
    for set in policy[8..].chunks_mut(8 * policy::words()) {
        for bit in characters::entries()..8 * set.len() {
            set[bit / 8] &= !(1 << (bit % 8));
        }
    }
}

/// The lines of a sheet, each with its end.
fn lines(sheet: &[u8]) -> impl Iterator<Item = &[u8]> {
    sheet.split_inclusive(|byte| *byte == b'\n')
}

/// A line without the comma at its end.
fn without_last_comma(line: &[u8]) -> Vec<u8> {
    match line {
        [front @ .., b',', b'\n'] => [front, b"\n"].concat(),
        _ => line.to_vec(),
    }
}

/// The last piece of a line, with the line's end.
fn last_piece(line: &[u8]) -> &[u8] {
    let mut pieces = line.rsplit(|byte| *byte == b',');
    pieces.next().unwrap_or_default()
}

/// The sheet with other digits for each run of digits.
fn with_digits(sheet: &[u8], other: impl Fn(&[u8]) -> Vec<u8>) -> Vec<u8> {
    let kinds = |a: &u8, b: &u8| a.is_ascii_hexdigit() == b.is_ascii_hexdigit();
    let runs = sheet.chunk_by(kinds).map(|run| match run {
        [first, ..] if first.is_ascii_hexdigit() => other(run),
        _ => run.to_vec(),
    });
    runs.collect::<Vec<_>>().concat()
}

/// The sheet with each range that runs down turned.
fn turned(sheet: &[u8]) -> Vec<u8> {
    let mut sheet = sheet.to_vec();
    while let Some(at) = sheet::running_down(&sheet[..sheet::beginning(&sheet)]) {
        let rest = &sheet[at..];
        let end = rest.iter().position(|byte| b",\n".contains(byte));
        let range = &rest[..end.unwrap_or(rest.len())];
        let ends: Vec<&[u8]> = range.rsplit(|byte| *byte == b'-').collect();
        let other = ends.join(&b'-');
        sheet[at..at + other.len()].copy_from_slice(&other);
    }
    sheet
}

/// A sheet with each piece written in another way.
fn with_pieces(sheet: &[u8], other: impl Fn(&Piece) -> String) -> Vec<u8> {
    let mut out = Vec::new();
    let mut at = 0;
    for piece in sheet::pieces(sheet) {
        out.extend(&sheet[at..piece.offset]);
        out.extend(other(&piece).bytes());
        at = piece.offset + piece.length();
    }
    out.extend(&sheet[at..]);
    out
}

/// A range's dash and end.
fn rest(piece: &Piece) -> String {
    let end = piece.end.map(|end| format!("-{:04X}", sheet::value(end)));
    end.unwrap_or_default()
}

/// The entries of a piece.
fn entries(piece: &Piece) -> impl Iterator<Item = u32> {
    let first = sheet::value(piece.start);
    let last = piece.end.map_or(first, sheet::value);
    let all = (0..).map_while(characters::entry);
    all.filter(move |entry| (first..=last).contains(entry))
}

/// A code point in the fewest digits allowed.
fn written(code_point: u32) -> String {
    let width = if code_point > 0xFF { 4 } else { 2 };
    format!("{code_point:0width$X}")
}

/// The entries of a piece, those joined whose code points follow each other.
fn adjacent(piece: &Piece) -> String {
    let entries: Vec<u32> = entries(piece).collect();
    let runs = entries.chunk_by(|entry, next| entry + 1 == *next);
    let pieces = runs.map(|run| match run {
        [first, .., last] => format!("{}-{}", written(*first), written(*last)),
        _ => run.iter().copied().map(written).collect(),
    });
    pieces.collect::<Vec<_>>().join(",")
}
