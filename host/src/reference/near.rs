//! The findings around a stretch of bytes, and the one nearest to an offset: document 02, (ix).

use std::ops::Range;

use crate::calls::{Answer, FINDING_BYTES, NEAREST_BYTES};

use super::calls::{Draft, accept, push_finding};
use super::items::items;
use super::positions::Positions;
use super::rules::finding;

/// A listed finding: its bytes in the text, and its row.
struct Listed {
    span: Range<u64>,
    row: Vec<u8>,
}

/// What the call around a stretch does but for the test of the two rooms.
#[derive(Debug, Clone, PartialEq, Eq)]
pub enum Drafts {
    /// It is refused.
    Refused(Answer),
    /// It writes these rows: those inside, and those that only share a byte.
    Writes([Vec<u8>; 2]),
}

impl Drafts {
    /// The rooms that the two tables need.
    #[must_use]
    pub fn wanted(&self) -> [usize; 2] {
        match self {
            Self::Refused(_) => [0, 0],
            Self::Writes(tables) => tables.each_ref().map(Vec::len),
        }
    }

    /// The answer with these rooms, and what is written at the front of each table: "refusal 7 gives the number wanted
    /// by the first that is short, the wholly-inside table before the other."
    #[must_use]
    pub fn with_rooms(&self, rooms: [usize; 2]) -> (Answer, [&[u8]; 2]) {
        let tables = match self {
            Self::Refused(answer) => return (*answer, [&[], &[]]),
            Self::Writes(tables) => tables.each_ref().map(Vec::as_slice),
        };
        let places = tables.map(|table| (table.len() / FINDING_BYTES) as u64);
        for ((table, room), wanted) in tables.iter().zip(rooms).zip(places) {
            if room < table.len() {
                return (Answer::new(7, wanted), [&[], &[]]);
            }
        }
        let value = places[0] + (places[1] << 28);
        (Answer::new(Answer::DONE, value), tables)
    }
}

/// "List the findings that lie wholly inside it and, separately, those that only share a byte with it", byte by byte.
#[must_use]
pub fn around(text: &[u8], policy: &[u8], from: u64, to: u64) -> Drafts {
    let listed = match listed(text, policy) {
        Ok(listed) => listed,
        Err(refusal) => return Drafts::Refused(refusal),
    };
    // There are no bytes past the text, and none in a range that ends before its start.
    let marked = from..to.min(text.len() as u64);
    let mut tables = [Vec::new(), Vec::new()];
    for Listed { span, row } in listed {
        let bytes = || span.clone();
        if bytes().all(|byte| marked.contains(&byte)) {
            tables[0].extend(row);
        } else if bytes().any(|byte| marked.contains(&byte)) {
            tables[1].extend(row);
        }
    }
    Drafts::Writes(tables)
}

/// "For a single offset give the nearest finding .. and the earlier finding when two are equally near. A text with no
/// finding answers \"none\"."
#[must_use]
pub fn nearest(text: &[u8], policy: &[u8], offset: u64) -> Draft {
    let listed = match listed(text, policy) {
        Ok(listed) => listed,
        Err(refusal) => return Draft::Refused(refusal),
    };
    // Of several that are least, `min_by_key` gives the first.
    let nearest = listed
        .into_iter()
        .min_by_key(|of| distance(&of.span, offset));
    match nearest {
        None => Draft::Nothing,
        Some(Listed { span, mut row }) => {
            row.extend(distance(&span, offset).to_le_bytes());
            Draft::table(row, NEAREST_BYTES)
        }
    }
}

/// "distance 0 inside its span, otherwise the difference between the offset and that of its first or last byte, the
/// smaller".
fn distance(span: &Range<u64>, offset: u64) -> u64 {
    if span.contains(&offset) {
        return 0;
    }
    let last = span.end - 1;
    offset.abs_diff(span.start).min(offset.abs_diff(last))
}

/// The findings of a text in text order, or the first of the refusals 1 to 3.
fn listed(text: &[u8], policy: &[u8]) -> Result<Vec<Listed>, Answer> {
    let policy = accept(text, policy)?;
    let mut positions = Positions::new(text);
    let found = items(text).filter_map(|item| {
        let analysis = finding(&item, &policy)?;
        let places = positions.of(item.start, item.end);
        let mut row = Vec::with_capacity(NEAREST_BYTES);
        push_finding(&mut row, item.start, item.end, &analysis.counts, &places);
        Some(Listed {
            span: item.start as u64..item.end as u64,
            row,
        })
    });
    Ok(found.collect())
}
