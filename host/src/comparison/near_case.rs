//! What the calls around a stretch and for the nearest finding do to one text, and the stretches and offsets for it.

use std::collections::BTreeSet;

use super::lent::{Difference, MARGIN, lend, lend_two};
use super::policies::Policy;
use crate::Random;
use crate::calls::{Calls, FINDING_BYTES, NEAREST_BYTES};
use crate::reference::near;

/// A stretch and an offset.
#[derive(Debug, Clone, Copy, PartialEq, Eq)]
pub struct Mark {
    /// The start of the stretch.
    pub from: u64,
    /// Its end.
    pub to: u64,
    /// The offset.
    pub offset: u64,
}

/// Compares both calls on a text under a policy, with each of the stretches and offsets.
pub fn check(
    calls: &dyn Calls,
    text: &[u8],
    policy: &Policy,
    marks: &[Mark],
) -> Result<(), Difference> {
    let bytes = &policy.bytes[..];
    for &Mark { from, to, offset } in marks {
        let drafts = near::around(text, bytes, from, to);
        for rooms in rooms(drafts.wanted()) {
            let name = || format!("around {from} to {to}");
            lend_two([[MARGIN; 2]; 2], name, &drafts, rooms, |inside, sharing| {
                calls.around(text, bytes, from, to, inside, sharing)
            })?;
        }
        let draft = near::nearest(text, bytes, offset);
        for room in [0, NEAREST_BYTES - 1, NEAREST_BYTES, NEAREST_BYTES + 9] {
            let name = || format!("nearest to {offset}");
            lend(name, &draft, room, |row| {
                calls.nearest(text, bytes, offset, row)
            })?;
        }
    }
    Ok(())
}

/// The rooms of the two tables: none; what each wants; one byte less for the first, for the second and for both; and
/// more for both.
fn rooms([inside, sharing]: [usize; 2]) -> BTreeSet<[usize; 2]> {
    let less = |room: usize| room.saturating_sub(1);
    BTreeSet::from([
        [0, 0],
        [inside, sharing],
        [less(inside), sharing],
        [inside, less(sharing)],
        [less(inside), less(sharing)],
        [inside + FINDING_BYTES, sharing + FINDING_BYTES - 1],
    ])
}

/// Every stretch and every offset of a short text: all offsets up to some way past its end, and the largest number.
#[must_use]
pub fn every_mark(length: usize) -> Vec<Mark> {
    let offsets = || (0..=length as u64 + 2).chain([u64::MAX]);
    let starts = offsets().flat_map(|from| offsets().map(move |to| (from, to)));
    let mut nearest = offsets().cycle();
    let mark = |(from, to)| Mark {
        from,
        to,
        offset: nearest.next().unwrap_or(0),
    };
    starts.map(mark).collect()
}

/// Drawn stretches and offsets. Most are at the edges of findings or one byte off, and some are large.
#[must_use]
pub fn drawn(random: &mut Random, text: &[u8], policy: &Policy) -> Vec<Mark> {
    let mut edges = vec![0, text.len() as u64];
    if let near::Drafts::Writes([table, _]) = near::around(text, &policy.bytes, 0, u64::MAX) {
        for row in table.chunks(FINDING_BYTES) {
            edges.extend(row[..16].chunks(8).map(number));
        }
    }
    let mut place = || match random.below(8) {
        0 => random.below(text.len() + 3) as u64,
        1 => random.element(&[u64::MAX, u64::MAX - 1, 1 << 56, 1 << 28, 1 << 24]),
        other => {
            let edge = edges[random.below(edges.len())];
            match other {
                2 => edge + 1,
                3 => edge.saturating_sub(1),
                _ => edge,
            }
        }
    };
    let mark = |_| Mark {
        from: place(),
        to: place(),
        offset: place(),
    };
    (0..4).map(mark).collect()
}

/// A number of a row.
fn number(bytes: &[u8]) -> u64 {
    bytes
        .iter()
        .rev()
        .fold(0, |sum, byte| sum << 8 | u64::from(*byte))
}
