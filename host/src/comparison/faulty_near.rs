//! Calls around a stretch and for the nearest finding with a planted fault.

use super::faults::Fault;
use crate::calls::{Answer, Calls, FINDING_BYTES, NEAREST_BYTES};

/// A stretch.
pub type Stretch = (u64, u64);

/// The stretch that the call is made with instead.
fn other_stretch(fault: Fault, (from, to): Stretch) -> Stretch {
    match fault {
        Fault::TouchingShares if from < to => (from.saturating_sub(1), to),
        Fault::EmptyStretchShares if from == to => (from, to.saturating_add(1)),
        Fault::StretchTurned if to < from => (to, from),
        _ => (from, to),
    }
}

/// The call around a stretch.
pub fn around(
    calls: &dyn Calls,
    fault: Fault,
    (text, policy): (&[u8], &[u8]),
    stretch: Stretch,
    [inside, sharing]: [&mut [u8]; 2],
) -> u64 {
    let (from, to) = other_stretch(fault, stretch);
    let enough = || vec![0; 2 * FINDING_BYTES];
    let word = calls.around(text, policy, from, to, inside, sharing);
    let answer = Answer::of_word(word);
    match (fault, answer.number) {
        (Fault::SharingTableFirst, 7) => {
            let mut wide = vec![0; answer.value as usize * FINDING_BYTES];
            let second = calls.around(text, policy, from, to, &mut wide, sharing);
            if Answer::of_word(second).number == 7 {
                return second;
            }
        }
        (Fault::ShortTableWrites, 7) => {
            let _ = calls.around(text, policy, from, to, inside, &mut enough());
        }
        (Fault::SharingAsInside, Answer::DONE) if answer.value >> 28 > 0 => {
            let rows = (answer.value & 0xFFF_FFFF) as usize;
            let place = rows * FINDING_BYTES;
            if let Some(row) = inside.get_mut(place..place + FINDING_BYTES) {
                row.copy_from_slice(&sharing[..FINDING_BYTES]);
                return word + 1 - (1 << 28);
            }
        }
        _ => {}
    }
    word
}

/// The call for the nearest finding.
pub fn nearest(
    calls: &dyn Calls,
    fault: Fault,
    (text, policy): (&[u8], &[u8]),
    offset: u64,
    row: &mut [u8],
) -> u64 {
    let asked = match fault {
        Fault::OffsetCut => offset.min(text.len() as u64),
        _ => offset,
    };
    let word = calls.nearest(text, policy, asked, row);
    let answer = Answer::of_word(word);
    match (fault, answer.number) {
        (Fault::NoneNeedsRow, 255) if row.len() < NEAREST_BYTES => Answer::new(7, 1).word(),
        (Fault::LastByteAsEnd, Answer::DONE) if number(row, 1) <= offset => {
            let distance = number(row, 14).saturating_add(1);
            row[112..120].copy_from_slice(&distance.to_le_bytes());
            word
        }
        (Fault::LaterOfEquals, Answer::DONE) => {
            // At the same distance on the other side.
            let distance = number(row, 14);
            let later = offset.saturating_add(distance);
            let mut other = vec![0; NEAREST_BYTES];
            let _ = calls.nearest(text, policy, later, &mut other);
            if number(&other, 0) == later && number(&other, 0) > number(row, 0) {
                other[112..120].copy_from_slice(&distance.to_le_bytes());
                row[..NEAREST_BYTES].copy_from_slice(&other);
            }
            word
        }
        _ => word,
    }
}

/// A number of a row, by its index.
fn number(row: &[u8], index: usize) -> u64 {
    let bytes = row.iter().skip(8 * index).take(8);
    bytes.rev().fold(0, |sum, byte| sum << 8 | u64::from(*byte))
}
