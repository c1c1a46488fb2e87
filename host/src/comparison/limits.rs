//! Texts around the limits: what each program reads, what a list starts from, and what a call takes.

use super::policies::{Policy, refused};
use crate::Random;
use crate::reference::book::LONGEST_FIRST_TEXT;
use crate::reference::calls::LONGEST_TEXT;
use crate::reference::policy;
use crate::reference::programs::{LONGEST_TO_FORMAT, LONGEST_TO_REPORT};

/// The lengths in bytes that texts are made of, around each limit.
#[must_use]
pub fn lengths() -> Vec<usize> {
    let around = |limit: usize| [limit + 1, limit, limit - 1];
    let limits = [
        LONGEST_TEXT,
        LONGEST_FIRST_TEXT,
        LONGEST_TO_FORMAT,
        LONGEST_TO_REPORT,
    ];
    limits.into_iter().flat_map(around).collect()
}

/// A text of this length with a finding at its front, in its middle and at its end.
#[must_use]
pub fn sparse(length: usize) -> Vec<u8> {
    let mut text = vec![b'a'; length];
    let finding = "1\u{FE0E}".as_bytes();
    let end = "\u{1F1E6}\u{FE0F}\u{2764}".as_bytes();
    text[..finding.len()].copy_from_slice(finding);
    text[length / 2..][..finding.len()].copy_from_slice(finding);
    text[length - end.len()..].copy_from_slice(end);
    text
}

/// The texts of a length, each with a policy.
#[must_use]
pub fn cases(length: usize, random: &mut Random) -> Vec<(Vec<u8>, Policy)> {
    let default = Policy::default_policy();
    let mut cases = vec![(sparse(length), default.clone())];
    if length != LONGEST_TEXT - 1 {
        let mut damaged = vec![b'a'; length];
        damaged[length - 1] = 0xEF;
        cases.push((damaged, default.clone()));
        cases.push((vec![b'a'; length], refused(random)));
    }
    if length <= LONGEST_FIRST_TEXT && length != LONGEST_FIRST_TEXT - 1 {
        // Every byte gets a selector, so the formatted text is four times as long.
        let none = Policy::new("empty", policy::empty());
        cases.push((vec![b'1'; length], none));
    }
    if length == LONGEST_TEXT {
        cases.push((vec![b'a'; length], default));
    }
    cases
}
