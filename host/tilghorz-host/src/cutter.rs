//! A text of any length, read in parts that can be formatted apart.
//!
//! No more of it is held than a part and what is read with it. Which parts it has depends on its bytes alone.

use std::io::{self, Read};
use std::mem;

use tilghorz::LONGEST_TEXT;

/// The length of a part, if a cut is allowed there. It divides that of the longest text.
const PART: usize = 1 << 20;
/// The most bytes of a character. With as many bytes after an offset, a cut there is seen.
const CHARACTER: usize = 4;

/// Gives the parts of a text.
pub struct Cutter<R> {
    input: R,
    /// What was read, and not given.
    held: Vec<u8>,
    /// Where that begins in the text.
    start: u64,
    /// Whether the input has ended.
    has_ended: bool,
    /// Whether there is no further part.
    is_over: bool,
}

/// A part of a text.
#[derive(Debug, PartialEq, Eq)]
pub struct Part {
    /// Where it begins in the text.
    pub start: u64,
    /// Its bytes: at least one, and not more than a text may have.
    pub bytes: Vec<u8>,
}

/// Why there is no further part.
#[derive(Debug)]
pub enum Fault {
    /// The input cannot be read.
    Unread(io::Error),
    /// From here on no cut is allowed within the length of a text.
    NoCut(u64),
}

impl<R: Read> Cutter<R> {
    /// The parts of what a reader reads.
    pub fn new(input: R) -> Self {
        Self {
            input,
            held: Vec::new(),
            start: 0,
            has_ended: false,
            is_over: false,
        }
    }

    /// How many bytes have been given.
    pub const fn length(&self) -> u64 {
        self.start
    }

    /// The next part. After the last part and after a fault there is none.
    pub fn next(&mut self) -> Option<Result<Part, Fault>> {
        if self.is_over {
            return None;
        }
        let part = self.part().transpose();
        self.is_over = !matches!(part, Some(Ok(_)));
        part
    }

    /// The bytes up to the largest allowed cut within a part's length, or within the next stretch in which there is one.
    fn part(&mut self) -> Result<Option<Part>, Fault> {
        let mut from = 1;
        while from <= LONGEST_TEXT {
            self.fill(from + PART + CHARACTER).map_err(Fault::Unread)?;
            if self.held.is_empty() {
                return Ok(None);
            }
            // The end of what is held is no cut, unless it is the end of the text. It is searched only then.
            if let Some(cut) = tilghorz::cut(&self.held[from..], PART - 1) {
                let rest = self.held.split_off(from + cut);
                let bytes = mem::replace(&mut self.held, rest);
                let start = self.start;
                self.start += bytes.len() as u64;
                return Ok(Some(Part { start, bytes }));
            }
            from += PART;
        }
        Err(Fault::NoCut(self.start))
    }

    /// Reads until this many bytes are held, or the input ends.
    fn fill(&mut self, length: usize) -> io::Result<()> {
        let more = length.saturating_sub(self.held.len());
        if self.has_ended || more == 0 {
            return Ok(());
        }
        self.held.reserve_exact(more);
        let mut input = self.input.by_ref().take(more as u64);
        self.has_ended = input.read_to_end(&mut self.held)? < more;
        Ok(())
    }
}

#[cfg(test)]
mod tests {
    use super::*;

    /// The parts of a text, with what came at the end if it was a fault.
    fn parts(text: &[u8]) -> (Vec<Part>, Option<Fault>) {
        let (mut cutter, mut parts) = (Cutter::new(text), Vec::new());
        loop {
            match cutter.next() {
                None => return (parts, None),
                Some(Ok(part)) => parts.push(part),
                Some(Err(fault)) => {
                    assert!(cutter.next().is_none());
                    return (parts, Some(fault));
                }
            }
        }
    }

    /// A tag, before which no cut is allowed.
    const TAG: &str = "\u{E0061}";

    #[test]
    fn the_parts_are_the_text() {
        for text in [
            String::new(),
            "a".to_owned(),
            "a".repeat(PART),
            "a".repeat(PART + 1),
            "a".repeat(3 * PART),
            "\u{1F468}\u{1F3FB}\u{200D}".repeat(PART / 4),
            TAG.repeat(PART),
            format!("{}{}", "a".repeat(PART - 1), TAG.repeat(PART)),
            format!("{}b{}", TAG.repeat(PART), TAG.repeat(PART)),
        ] {
            let (parts, fault) = parts(text.as_bytes());
            assert!(fault.is_none());
            let mut end = 0;
            for Part { start, bytes } in parts {
                let part = &text[end..end + bytes.len()];
                assert_eq!((start, bytes.as_slice()), (end as u64, part.as_bytes()));
                assert!(!part.is_empty() && part.len() <= LONGEST_TEXT);
                assert!(
                    end == 0
                        || !part.starts_with([TAG.chars().next().expect("a tag"), '\u{1F3FB}'])
                );
                end += bytes.len();
            }
            assert_eq!(end, text.len());
        }
    }

    #[test]
    fn a_stretch_without_a_cut_is_a_fault_if_it_is_longer_than_a_text() {
        let longest = TAG.repeat(LONGEST_TEXT / TAG.len());
        let (found, fault) = parts(longest.as_bytes());
        assert!(fault.is_none());
        assert_eq!(found.len(), 1);
        let (found, fault) = parts(format!("{longest}a").as_bytes());
        assert!(fault.is_none());
        assert_eq!(found.len(), 2);
        let (found, fault) = parts(format!("{longest}{TAG}").as_bytes());
        assert!(found.is_empty());
        assert!(matches!(fault, Some(Fault::NoCut(0))));
        // "a" begins a part, and so does what follows a part of ASCII.
        let text = format!("{}{longest}", "a".repeat(2 * PART));
        let (found, fault) = parts(text.as_bytes());
        assert_eq!(found.len(), 2);
        assert!(matches!(fault, Some(Fault::NoCut(start)) if start == 2 * PART as u64 - 1));
    }
}
