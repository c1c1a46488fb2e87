//! Document 01, "Mending in sequence": the book of a list of calls.
//!
//! The book never reads a text again after the first one. That the library, which does, answers as the book says is
//! the claim that a simulated list tests.

use super::calls::{Draft, accept, push_finding, replacement};
use super::items::items;
use super::positions::Positions;
use super::rules::{Analysis, Counts, finding};
use crate::calls::Answer;

/// The length of the longest text that a list starts from.
pub const LONGEST_FIRST_TEXT: usize = 4_194_304;

/// The book of a list: the first text and its findings, each open or mended.
pub struct Book<'a> {
    first: &'a [u8],
    findings: Vec<Noted>,
}

/// A finding of the first text.
struct Noted {
    start: usize,
    end: usize,
    analysis: Analysis,
    /// The replacement, if the finding is mended.
    mended: Option<Vec<u8>>,
}

impl<'a> Book<'a> {
    /// The book before the first call; the refusal if text or policy is not accepted.
    pub fn new(first: &'a [u8], policy: &[u8]) -> Result<Self, Answer> {
        let policy = accept(first, policy)?;
        let noted = items(first).filter_map(|item| {
            Some(Noted {
                start: item.start,
                end: item.end,
                analysis: finding(&item, &policy)?,
                mended: None,
            })
        });
        Ok(Self {
            first,
            findings: noted.collect(),
        })
    }

    /// A call with its offset and decisions, but for the test of the room. The book stays as it is.
    #[must_use]
    pub fn draft(&self, offset: u64, decisions: &[u8]) -> Draft {
        let Some(number) = self.open_at(offset) else {
            return Draft::Refused(Answer::new(4, 0));
        };
        match replacement(&self.findings[number].analysis, decisions) {
            Err(refusal) => Draft::Refused(refusal),
            Ok(replacement) => Draft::bytes(self.text_with(Some((number, &replacement)))),
        }
    }

    /// Notes a call. The finding is mended if nothing is refused.
    pub fn note(&mut self, offset: u64, decisions: &[u8], room: usize) {
        let (answer, _) = self.draft(offset, decisions).with_room(room);
        if let (Answer::DONE, Some(number)) = (answer.number, self.open_at(offset)) {
            let noted = &mut self.findings[number];
            noted.mended = replacement(&noted.analysis, decisions).ok();
        }
    }

    /// "The first one with each mended finding's bytes exchanged for its replacement under its decisions."
    #[must_use]
    pub fn text(&self) -> Vec<u8> {
        self.text_with(None)
    }

    /// The places of the open findings in text order, each with the defaults of its decisions.
    #[must_use]
    pub fn open(&self) -> Vec<(usize, Vec<u8>)> {
        let open = self.placed().filter(|(_, _, noted)| noted.mended.is_none());
        open.map(|(_, place, noted)| {
            let defaults = noted.analysis.defaults();
            (place, defaults.map(|default| default.decision()).collect())
        })
        .collect()
    }

    /// The open findings as a table, "with starts and ends counted in that text".
    #[must_use]
    pub fn table(&self) -> Vec<u8> {
        let mut table = Vec::new();
        let text = self.text();
        let mut positions = Positions::new(&text);
        for (_, place, noted) in self.placed() {
            if noted.mended.is_none() {
                let end = place + (noted.end - noted.start);
                let places = positions.of(place, end);
                push_finding(&mut table, place, end, &noted.analysis.counts, &places);
            }
        }
        table
    }

    /// The totals of the open findings.
    #[must_use]
    pub fn totals(&self) -> Counts {
        let mut totals = [0; 8];
        for noted in self.findings.iter().filter(|noted| noted.mended.is_none()) {
            for (total, count) in totals.iter_mut().zip(noted.analysis.counts) {
                *total += count;
            }
        }
        totals
    }

    /// Each finding with its number and its place: "its start in the first text, plus the lengths of the replacements
    /// before it, less those of the bytes they took".
    fn placed(&self) -> impl Iterator<Item = (usize, usize, &Noted)> {
        let (mut plus, mut less) = (0, 0);
        self.findings
            .iter()
            .enumerate()
            .map(move |(number, noted)| {
                let place = noted.start + plus - less;
                if let Some(replacement) = &noted.mended {
                    plus += replacement.len();
                    less += noted.end - noted.start;
                }
                (number, place, noted)
            })
    }

    /// The number of the open finding whose place is the offset.
    fn open_at(&self, offset: u64) -> Option<usize> {
        self.placed()
            .find(|(_, place, noted)| noted.mended.is_none() && *place as u64 == offset)
            .map(|(number, _, _)| number)
    }

    /// The book's text, with one more finding mended.
    fn text_with(&self, further: Option<(usize, &[u8])>) -> Vec<u8> {
        let mut out = Vec::with_capacity(self.first.len());
        let mut from = 0;
        for (number, noted) in self.findings.iter().enumerate() {
            let mended = match further {
                Some((this, replacement)) if this == number => Some(replacement),
                _ => noted.mended.as_deref(),
            };
            if let Some(replacement) = mended {
                out.extend(&self.first[from..noted.start]);
                out.extend(replacement);
                from = noted.end;
            }
        }
        out.extend(&self.first[from..]);
        out
    }
}
