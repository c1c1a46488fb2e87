//! What the two programs write: document 01, "Programs read at most 12,288 bytes under the default policy"; document 02, (vii):
//! "The formatting program then reads up to 16,384 bytes", and "The report program keeps its limit".

use std::fmt::Write;

use crate::calls::Answer;

use super::calls::{Draft, accept, format};
use super::items::items;
use super::policy::default_policy;
use super::rules::{Counts, finding};

/// The most bytes that the program that formats reads.
pub const LONGEST_TO_FORMAT: usize = 16_384;

/// The most bytes that the report reads.
pub const LONGEST_TO_REPORT: usize = 12_288;

/// What the program that formats writes.
#[must_use]
pub fn formatted(input: &[u8]) -> Vec<u8> {
    if input.len() > LONGEST_TO_FORMAT {
        return refused(Answer::new(1, 0));
    }
    match format(input, default_policy()) {
        Draft::Refused(refusal) => refused(refusal),
        Draft::Nothing => input.to_vec(),
        Draft::Writes { bytes, .. } | Draft::WritesWithin { bytes, .. } => bytes,
    }
}

/// What the report writes: a line for each finding, and the totals.
#[must_use]
pub fn report(input: &[u8]) -> Vec<u8> {
    if input.len() > LONGEST_TO_REPORT {
        return refused(Answer::new(1, 0));
    }
    let policy = match accept(input, default_policy()) {
        Ok(policy) => policy,
        Err(refusal) => return refused(refusal),
    };
    let mut out = String::new();
    let mut totals: Counts = [0; 8];
    for item in items(input) {
        if let Some(analysis) = finding(&item, &policy) {
            // Writing to a string does not fail.
            let _ = write!(out, "{} {}", item.start, item.end);
            push_counts(&mut out, &analysis.counts);
            for (total, count) in totals.iter_mut().zip(analysis.counts) {
                *total += count;
            }
        }
    }
    out.push_str("total");
    push_counts(&mut out, &totals);
    out.into_bytes()
}

/// "`refused`, the number and any offset": only refusal 3 has one here.
fn refused(refusal: Answer) -> Vec<u8> {
    let Answer { number, value } = refusal;
    if number == 3 {
        format!("refused {number} {value}\n").into_bytes()
    } else {
        format!("refused {number}\n").into_bytes()
    }
}

/// Adds the counts, each after one blank, and ends the line.
fn push_counts(out: &mut String, counts: &Counts) {
    for count in counts {
        let _ = write!(out, " {count}");
    }
    out.push('\n');
}
