//! Document 02, (xii): carrying a policy over by character, from an old variation table to ours.

use super::calls::Draft;
use super::{characters, policy};
use crate::calls::Answer;

/// The bytes of a word.
const WORD: usize = 8;

/// The numbers of a list, "strictly ascending".
fn old_list(entries: &[u8]) -> Option<Vec<u64>> {
    let (numbers, rest) = entries.as_chunks::<WORD>();
    let numbers: Vec<u64> = numbers.iter().map(|of| u64::from_le_bytes(*of)).collect();
    let ascends = numbers.windows(2).all(|pair| pair[0] < pair[1]);
    (rest.is_empty() && ascends).then_some(numbers)
}

/// What carrying over does with any room. "Errors, before 2: 16, an old list that isn't strictly ascending or doesn't
/// match the old policy's word count; 2 then covers that policy's unused bits, and 15 isn't tested on it."
#[must_use]
pub fn carry(entries: &[u8], old_policy: &[u8]) -> Draft {
    let not_a_list = Draft::Refused(Answer::new(16, 0));
    let Some(old) = old_list(entries) else {
        return not_a_list;
    };
    let set_bytes = old.len().div_ceil(64) * WORD;
    if old_policy.len() != WORD + 4 * set_bytes {
        return not_a_list;
    }
    let holds = |set: usize, entry: usize| {
        let byte = old_policy[WORD + set * set_bytes + entry / 8];
        byte >> (entry % 8) & 1 == 1
    };
    let unused = old.len()..8 * set_bytes;
    if (0..4).any(|set| unused.clone().any(|entry| holds(set, entry))) {
        return Draft::Refused(Answer::new(2, 0));
    }
    // "An entry in both tables keeps its four memberships, an entry gone is dropped, and a new entry gets those of the
    // default policy under the new tables."
    let default = policy::default_policy();
    let mut carried = policy::empty();
    for entry in 0..characters::entries() {
        let character = characters::entry(entry as u64).map(u64::from);
        let place = old.iter().position(|of| Some(*of) == character);
        for set in 0..4 {
            let (byte, bit) = policy::place(set, entry);
            let is_member = match place {
                Some(place) => holds(set, place),
                None => default[byte] & bit != 0,
            };
            if is_member {
                carried[byte] |= bit;
            }
        }
    }
    Draft::bytes(carried)
}
