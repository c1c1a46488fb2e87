//! Formatting, listing, mending and scanning: document 01's "Replacement and text" and "Turned back". Repairing:
//! document 02, (ii).
//!
//! The test of the room comes last in every call. So each function gives what the call would do with any room, and
//! [`Draft::with_room`] does that test.

use crate::calls::{Answer, FINDING_BYTES, ITEM_BYTES};

use super::characters::Presentation;
use super::items::{Kind, items};
use super::policy::Policy;
use super::positions::Positions;
use super::repair::repaired;
use super::rules::{Analysis, Counts, finding};
use super::utf8;

/// The length of the longest text that is not refused.
pub const LONGEST_TEXT: usize = 16_777_216;

/// What a call does but for the test of the room.
#[derive(Debug, Clone, PartialEq, Eq)]
pub enum Draft {
    /// It is refused.
    Refused(Answer),
    /// There is nothing to do.
    Nothing,
    /// It writes these bytes.
    Writes {
        /// What goes to the front.
        bytes: Vec<u8>,
        /// How many bytes a place of the table has; 1 for text.
        place: usize,
        /// The number of the refusal if the room is too short.
        too_short: u8,
        /// The second value of the answer, in the bits from 28 on, where a call has two.
        second: u64,
    },
    /// It writes these bytes if the output has this room, which may be more than they need; else refusal 8 gives it.
    WritesWithin {
        /// What goes to the front.
        bytes: Vec<u8>,
        /// The room.
        wanted: usize,
    },
}

impl Draft {
    /// A call that writes bytes.
    #[must_use]
    pub const fn bytes(bytes: Vec<u8>) -> Self {
        Self::Writes {
            bytes,
            place: 1,
            too_short: 8,
            second: 0,
        }
    }

    /// A call that writes a table with places of this many bytes.
    #[must_use]
    pub const fn table(bytes: Vec<u8>, place: usize) -> Self {
        Self::Writes {
            bytes,
            place,
            too_short: 7,
            second: 0,
        }
    }

    /// The room that the result needs.
    #[must_use]
    pub fn wanted(&self) -> usize {
        match self {
            Self::Refused(_) | Self::Nothing => 0,
            Self::Writes { bytes, .. } => bytes.len(),
            Self::WritesWithin { wanted, .. } => *wanted,
        }
    }

    /// The answer with this room, and what is written at its front.
    #[must_use]
    pub fn with_room(&self, room: usize) -> (Answer, &[u8]) {
        match self {
            Self::Refused(answer) => (*answer, &[]),
            Self::Nothing => (Answer::NOTHING, &[]),
            Self::Writes {
                bytes,
                place,
                too_short,
                second,
            } => {
                let places = (bytes.len() / place) as u64;
                if bytes.len() <= room {
                    (Answer::new(Answer::DONE, places + (second << 28)), bytes)
                } else {
                    (Answer::new(*too_short, places), &[])
                }
            }
            Self::WritesWithin { bytes, wanted } if room >= *wanted => {
                (Answer::new(Answer::DONE, bytes.len() as u64), bytes)
            }
            Self::WritesWithin { wanted, .. } => (Answer::new(8, *wanted as u64), &[]),
        }
    }
}

/// Formatting.
#[must_use]
pub fn format(text: &[u8], policy: &[u8]) -> Draft {
    let policy = match accept(text, policy) {
        Ok(policy) => policy,
        Err(refusal) => return Draft::Refused(refusal),
    };
    let mut out = Vec::with_capacity(text.len());
    let mut is_changed = false;
    for item in items(text) {
        match finding(&item, &policy) {
            None => out.extend(&text[item.start..item.end]),
            Some(analysis) => {
                is_changed = true;
                out.extend(analysis.default_replacement());
            }
        }
    }
    if is_changed {
        Draft::bytes(out)
    } else {
        Draft::Nothing
    }
}

/// Listing.
#[must_use]
pub fn list(text: &[u8], policy: &[u8]) -> Draft {
    let policy = match accept(text, policy) {
        Ok(policy) => policy,
        Err(refusal) => return Draft::Refused(refusal),
    };
    let mut table = Vec::new();
    let mut positions = Positions::new(text);
    for item in items(text) {
        if let Some(analysis) = finding(&item, &policy) {
            let places = positions.of(item.start, item.end);
            push_finding(&mut table, item.start, item.end, &analysis.counts, &places);
        }
    }
    Draft::table(table, FINDING_BYTES)
}

/// Mending.
#[must_use]
pub fn mend(text: &[u8], policy: &[u8], offset: u64, decisions: &[u8]) -> Draft {
    let policy = match accept(text, policy) {
        Ok(policy) => policy,
        Err(refusal) => return Draft::Refused(refusal),
    };
    let at_offset = items(text).find(|item| item.start as u64 >= offset);
    let found = at_offset
        .filter(|item| item.start as u64 == offset)
        .and_then(|item| Some((finding(&item, &policy)?, item)));
    let Some((analysis, item)) = found else {
        return Draft::Refused(Answer::new(4, 0));
    };
    match replacement(&analysis, decisions) {
        Err(refusal) => Draft::Refused(refusal),
        Ok(replacement) => {
            Draft::bytes([&text[..item.start], &replacement, &text[item.end..]].concat())
        }
    }
}

/// The replacement under decision bytes, or their refusal.
pub fn replacement(analysis: &Analysis, decisions: &[u8]) -> Result<Vec<u8>, Answer> {
    let wanted = analysis.defaults().count();
    if decisions.len() != wanted {
        return Err(Answer::new(5, wanted as u64));
    }
    if let Some(index) = decisions.iter().position(|&byte| byte > 1) {
        return Err(Answer::new(6, index as u64));
    }
    let decisions = decisions.iter().copied();
    Ok(analysis.replacement(decisions.filter_map(Presentation::of_decision)))
}

/// Scanning: the spans, kinds, tag reports and positions of the items.
#[must_use]
pub fn scan(text: &[u8]) -> Draft {
    if let Err(refusal) = accept_length(text).and_then(|()| accept_form(text)) {
        return Draft::Refused(refusal);
    }
    let mut table = Vec::new();
    let mut positions = Positions::new(text);
    for item in items(text) {
        let kind = match item.kind {
            Kind::Passthrough => 0,
            Kind::Selectors => 1,
            Kind::Links => 2,
            Kind::Emoji => 3,
        };
        let first = [
            item.start as u64,
            item.end as u64,
            kind,
            item.tags_complete().into(),
        ];
        push_numbers(&mut table, &first);
        push_numbers(&mut table, &positions.of(item.start, item.end));
    }
    Draft::table(table, ITEM_BYTES)
}

/// Repairing: "The intake's limit 1 is on the bytes taken in. A short output is refused as before, with the wanted
/// length."
#[must_use]
pub fn repair(text: &[u8]) -> Draft {
    if let Err(refusal) = accept_length(text) {
        return Draft::Refused(refusal);
    }
    let (bytes, second) = repaired(text);
    Draft::Writes {
        bytes,
        place: 1,
        too_short: 8,
        second,
    }
}

/// Adds a finding's row to a table: "In a listed finding the four new numbers follow the counts, characters first."
pub fn push_finding(
    table: &mut Vec<u8>,
    start: usize,
    end: usize,
    counts: &Counts,
    places: &[u64; 4],
) {
    push_numbers(table, &[start as u64, end as u64]);
    push_numbers(table, counts);
    push_numbers(table, places);
}

/// Adds numbers to a table.
pub fn push_numbers(table: &mut Vec<u8>, numbers: &[u64]) {
    for number in numbers {
        table.extend(number.to_le_bytes());
    }
}

/// The policy of a call with an accepted text and policy, or the first of the refusals 1, 2, 15, 2 and 3.
pub fn accept(text: &[u8], policy: &[u8]) -> Result<Policy, Answer> {
    accept_length(text)?;
    let policy = Policy::read(policy)?;
    accept_form(text)?;
    Ok(policy)
}

/// Refusal 1.
fn accept_length(text: &[u8]) -> Result<(), Answer> {
    if text.len() > LONGEST_TEXT {
        return Err(Answer::new(1, 0));
    }
    Ok(())
}

/// Refusal 3.
fn accept_form(text: &[u8]) -> Result<(), Answer> {
    let beginning = utf8::well_formed_beginning(text);
    if beginning < text.len() {
        return Err(Answer::new(3, beginning as u64));
    }
    Ok(())
}

/// "The filed text is the message's own bytes, or the buffer's if changed. Of the buffer it is the front of the
/// formatted length, or all of it where that length passes it." The length is there if the text was changed.
#[must_use]
pub fn filed<'a>(message: &'a [u8], buffer: &'a [u8], changed: Option<u64>) -> &'a [u8] {
    match changed {
        None => message,
        Some(length) => {
            let length = usize::try_from(length).unwrap_or(usize::MAX);
            buffer.get(..length).unwrap_or(buffer)
        }
    }
}
