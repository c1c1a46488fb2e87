//! The findings around a stretch and the nearest finding, beside a listing of all findings.

use std::hint::black_box;

use compare::library::Library;
use tilghorz_comparison::calls::{Answer, Calls, FINDING_BYTES, NEAREST_BYTES};
use tilghorz_comparison::reference::policy::{default_policy, empty};

use crate::inputs::Input;

/// A text, and the tables that are lent. No call clears them.
pub struct Near<'a> {
    text: &'a [u8],
    policy: Vec<u8>,
    /// The number of findings.
    pub findings: usize,
    /// Where the last finding ends.
    last_end: usize,
    inside: Vec<u8>,
    sharing: Vec<u8>,
    row: Vec<u8>,
}

impl<'a> Near<'a> {
    /// Prepares a text.
    pub fn new(input: &Input, text: &'a str) -> Self {
        let policy = match input.empty_policy {
            true => empty(),
            false => default_policy().to_vec(),
        };
        // Without a table the findings are only counted.
        let word = Library.list(text.as_bytes(), &policy, &mut []);
        let findings = Answer::of_word(word).value as usize;
        let mut inside = vec![0xAA; findings * FINDING_BYTES];
        Library.list(text.as_bytes(), &policy, &mut inside);
        let last_end = match inside.last_chunk::<FINDING_BYTES>() {
            Some(row) => number(row, 1),
            None => 0,
        };
        Self {
            text: text.as_bytes(),
            policy,
            findings,
            last_end,
            inside,
            sharing: vec![0xAA; 2 * FINDING_BYTES],
            row: vec![0xAA; NEAREST_BYTES],
        }
    }

    /// Holds the stretch of the whole text to the listing.
    pub fn compare(&mut self) -> Result<(), String> {
        self.list();
        let listed = self.inside.clone();
        self.inside.fill(0xAA);
        if Answer::of_word(self.whole()).value != self.findings as u64 || self.inside != listed {
            return Err("the whole text has other findings than the listing".to_owned());
        }
        Ok(())
    }

    /// A listing of all findings.
    pub fn list(&mut self) -> u64 {
        black_box(Library.list(black_box(self.text), &self.policy, &mut self.inside))
    }

    /// The findings around a stretch, into tables with these numbers of rows.
    fn around(&mut self, from: usize, to: usize, inside: usize, sharing: usize) -> u64 {
        black_box(Library.around(
            black_box(self.text),
            &self.policy,
            from as u64,
            to as u64,
            &mut self.inside[..inside * FINDING_BYTES],
            &mut self.sharing[..sharing * FINDING_BYTES],
        ))
    }

    /// The stretch is the whole text.
    pub fn whole(&mut self) -> u64 {
        self.around(0, self.text.len(), self.findings, 2)
    }

    /// The stretch is a tenth in the middle of the text.
    pub fn middle(&mut self) -> u64 {
        let tenth = self.text.len() / 10;
        self.around(5 * tenth, 6 * tenth, self.findings, 2)
    }

    /// The stretch is the first three bytes of the text.
    pub fn first(&mut self) -> u64 {
        self.around(0, 3, self.findings, 2)
    }

    /// The stretch is the whole text, and the second table has no row.
    pub fn counted(&mut self) -> u64 {
        self.around(0, self.text.len(), self.findings, 0)
    }

    /// The last finding lies across the end of the stretch, and the first table has just the rows that are wanted.
    pub fn exact(&mut self) -> u64 {
        let to = self.last_end.saturating_sub(1);
        self.around(0, to, self.findings.saturating_sub(1), 2)
    }

    /// The finding nearest to the middle of the text.
    pub fn nearest(&mut self) -> u64 {
        let offset = self.text.len() as u64 / 2;
        black_box(Library.nearest(black_box(self.text), &self.policy, offset, &mut self.row))
    }
}

/// A number of a row.
fn number(row: &[u8; FINDING_BYTES], place: usize) -> usize {
    let bytes = row.as_chunks::<8>().0[place];
    u64::from_le_bytes(bytes) as usize
}
