//! What is measured: calls of the library, the same by the crate, and the limits of both.

use std::hint::black_box;

use compare::library::Library;
use evfmt::{Policy, analyze_scan_item, format_text, scan};
use tilghorz_comparison::beside;
use tilghorz_comparison::calls::{Answer, Calls, FINDING_BYTES, ITEM_BYTES, TIP_BYTES};
use tilghorz_comparison::reference::policy::empty;

use crate::inputs::Input;

/// A text with all that the calls on it need. Each work goes over all its messages; most texts are one message.
pub struct Work<'a> {
    messages: Vec<&'a str>,
    policy: Policy,
    policy_bytes: Vec<u8>,
    /// The findings of all messages.
    pub findings: usize,
    /// The start and some decisions of the first and of the last finding of a text that is one message.
    ends: Option<[(u64, Vec<u8>); 2]>,
}

/// The buffers that are lent to the calls, each long enough for every message. No call clears them.
pub struct Buffers {
    out: Vec<u8>,
    table: Vec<u8>,
}

impl<'a> Work<'a> {
    /// Prepares a text.
    pub fn new(input: &Input, text: &'a str) -> (Self, Buffers) {
        let policy = match input.empty_policy {
            true => beside::policy(&empty()),
            false => Policy::default(),
        };
        let size = input.message.unwrap_or(text.len()).max(1);
        let mut work = Self {
            messages: text.as_bytes().chunks(size).map(as_text).collect(),
            policy_bytes: beside::policy_bytes(policy.clone()),
            policy,
            findings: 0,
            ends: None,
        };
        let mut most = 0;
        for message in &work.messages {
            // Without a table the findings are only counted.
            let word = Library.list(message.as_bytes(), &work.policy_bytes, &mut []);
            let findings = Answer::of_word(word).value as usize;
            work.findings += findings;
            most = most.max(findings);
        }
        let mut buffers = Buffers {
            out: vec![0xAA; 4 * size],
            table: vec![0xAA; most * FINDING_BYTES],
        };
        if work.messages.len() == 1 {
            work.list(&mut buffers);
            work.ends = buffers.ends();
        }
        (work, buffers)
    }

    /// Whether the text is one message with a finding, so that mending is measured.
    #[must_use]
    pub const fn can_be_mended(&self) -> bool {
        self.ends.is_some()
    }

    /// Holds what the library answers to the crate's answers.
    pub fn compare(&self, buffers: &mut Buffers) -> Result<(), String> {
        for message in &self.messages {
            let is_same = self.formats_alike(message, &mut buffers.out)
                && self.lists_alike(message, &mut buffers.table)
                && self.mends_alike(message, &mut buffers.out);
            if !is_same {
                return Err("the library does not answer as the crate does".to_owned());
            }
        }
        Ok(())
    }

    fn formats_alike(&self, message: &str, out: &mut [u8]) -> bool {
        let answer = Library.format(message.as_bytes(), &self.policy_bytes, out);
        match beside::formatted(message, &self.policy) {
            None => answer == Answer::NOTHING.word(),
            Some(formatted) => answer == formatted.len() as u64 && out.starts_with(&formatted),
        }
    }

    fn lists_alike(&self, message: &str, table: &mut [u8]) -> bool {
        let answer = Library.list(message.as_bytes(), &self.policy_bytes, table);
        // The crate has the first ten numbers of a row.
        let findings = beside::findings(message, &self.policy);
        let rows = findings.chunks_exact(80);
        let mut listed = table.chunks_exact(FINDING_BYTES);
        answer == rows.len() as u64
            && rows
                .zip(&mut listed)
                .all(|(row, listed)| listed.starts_with(row))
    }

    fn mends_alike(&self, message: &str, out: &mut [u8]) -> bool {
        self.ends.iter().flatten().all(|(start, decisions)| {
            let text = message.as_bytes();
            let answer = Library.mend(text, &self.policy_bytes, *start, decisions, out);
            beside::mended(message, &self.policy, *start, decisions)
                .is_some_and(|mended| answer == mended.len() as u64 && out.starts_with(&mended))
        })
    }

    /// Formats by the library.
    pub fn format(&self, buffers: &mut Buffers) {
        for message in &self.messages {
            let (text, out) = (message.as_bytes(), &mut buffers.out[..]);
            black_box(Library.format(black_box(text), &self.policy_bytes, out));
        }
    }

    /// Formats by the crate.
    pub fn format_by_the_crate(&self) {
        for message in &self.messages {
            black_box(format_text(black_box(message), &self.policy));
        }
    }

    /// Lists the findings by the library.
    pub fn list(&self, buffers: &mut Buffers) {
        for message in &self.messages {
            let (text, table) = (message.as_bytes(), &mut buffers.table[..]);
            black_box(Library.list(black_box(text), &self.policy_bytes, table));
        }
    }

    /// Goes over the findings by the crate, and keeps none.
    pub fn list_by_the_crate(&self) {
        for message in &self.messages {
            for item in scan(black_box(message)) {
                if let Some(finding) = analyze_scan_item(&item, &self.policy) {
                    black_box((finding.span.clone(), finding.non_canonicality()));
                }
            }
        }
    }

    /// Mends the first finding (0) or the last one (1) by the library, if there is one.
    pub fn mend(&self, end: usize, buffers: &mut Buffers) {
        let Some(ends) = &self.ends else {
            return;
        };
        let (start, decisions) = &ends[end];
        for message in &self.messages {
            let (text, out) = (black_box(message.as_bytes()), &mut buffers.out[..]);
            black_box(Library.mend(text, &self.policy_bytes, *start, decisions, out));
        }
    }

    /// Lists the items by the library.
    pub fn scan(&self, table: &mut [u8]) {
        for message in &self.messages {
            black_box(Library.scan(black_box(message.as_bytes()), table));
        }
    }

    /// A table for the items of every message.
    #[must_use]
    pub fn item_table(&self) -> Vec<u8> {
        // Without a table the items are only counted.
        let count = |message: &&str| Library.scan(message.as_bytes(), &mut []);
        let items = self.messages.iter().map(count).map(Answer::of_word);
        vec![0xAA; items.map(|answer| answer.value as usize).max().unwrap_or(0) * ITEM_BYTES]
    }

    /// Lists the memberships that decide the text by the library.
    pub fn tips(&self, table: &mut [u8]) {
        for message in &self.messages {
            let text = black_box(message.as_bytes());
            black_box(Library.tips(text, &self.policy_bytes, table));
        }
    }

    /// A table for all memberships.
    #[must_use]
    pub fn tip_table() -> Vec<u8> {
        vec![0xAA; 4 * evfmt::internals::VARIATION_ENTRIES.len() * TIP_BYTES]
    }

    /// Tests the text by the standard library.
    pub fn test(&self) {
        for message in &self.messages {
            // The answer is what the test is for.
            let _ = black_box(str::from_utf8(black_box(message.as_bytes())));
        }
    }

    /// Copies the text.
    pub fn copy(&self, buffers: &mut Buffers) {
        for message in &self.messages {
            buffers.out[..message.len()].copy_from_slice(black_box(message.as_bytes()));
            black_box(&mut buffers.out);
        }
    }
}

impl Buffers {
    /// The starts of the first and of the last finding listed, each with as many decisions as it wants.
    fn ends(&self) -> Option<[(u64, Vec<u8>); 2]> {
        let rows = || self.table.chunks_exact(FINDING_BYTES);
        let end = |row: &[u8]| (number(row, 0), vec![0; number(row, 9) as usize]);
        Some([end(rows().next()?), end(rows().last()?)])
    }
}

/// A number of a row.
fn number(row: &[u8], place: usize) -> u64 {
    let bytes = row[8 * place..][..8].iter().rev();
    bytes.fold(0, |number, &byte| number << 8 | u64::from(byte))
}

/// A message of a text whose messages are whole characters.
fn as_text(message: &[u8]) -> &str {
    str::from_utf8(message).expect("each message is made of whole characters")
}
