//! The faults that are planted into carrying a policy over.

use super::faults::Fault;
use super::faulty::flip;
use crate::calls::{Answer, Calls};
use crate::reference::{characters, policy};

/// Carries a policy over with a planted fault.
pub fn carry(
    calls: &dyn Calls,
    fault: Fault,
    entries: &[u8],
    old_policy: &[u8],
    out: &mut [u8],
) -> Answer {
    if let Some(refusal) = refused_first(calls, fault, entries, old_policy, out) {
        return refusal;
    }
    let (list, taken) = taken_for(fault, entries, old_policy);
    let answer = Answer::of_word(calls.carry_policy(&list, &taken, out));
    if answer.is_refusal() {
        if fault == Fault::RefusedCarryWrites {
            flip(out, 0);
        }
        return answer;
    }
    match fault {
        Fault::CarryByPlace => by_place(old_policy, out),
        Fault::NewEntryEmpty => without_new(entries, out),
        Fault::CarriedVersion => out[..8].copy_from_slice(&old_policy[..8]),
        Fault::ByteAfterCarried => flip(out, answer.value as usize),
        _ => {}
    }
    answer
}

/// A refusal that comes before the right one.
fn refused_first(
    calls: &dyn Calls,
    fault: Fault,
    entries: &[u8],
    old_policy: &[u8],
    out: &[u8],
) -> Option<Answer> {
    let bytes = policy::bytes();
    match fault {
        Fault::RoomBeforeList if out.len() < bytes => Some(Answer::new(8, bytes as u64)),
        Fault::VersionTested if old_policy.get(..8) != Some(&policy::version().to_le_bytes()) => {
            let word = calls.carry_policy(entries, old_policy, &mut vec![0; bytes]);
            (Answer::of_word(word).number == Answer::DONE).then_some(Answer::new(15, 0))
        }
        Fault::BitsBeforeList if !entries.len().is_multiple_of(8) => {
            let whole = &entries[..entries.len() / 8 * 8];
            let word = calls.carry_policy(whole, old_policy, &mut vec![0; bytes]);
            (Answer::of_word(word).number == 2).then_some(Answer::new(2, 0))
        }
        _ => None,
    }
}

/// The list and the policy that are taken instead.
fn taken_for(fault: Fault, entries: &[u8], old_policy: &[u8]) -> (Vec<u8>, Vec<u8>) {
    let (mut list, mut taken) = (entries.to_vec(), old_policy.to_vec());
    let count = entries.len() / 8;
    match fault {
        Fault::HalfNumber => list.truncate(8 * count),
        Fault::EqualNumbers => {
            let numbers = entries.as_chunks::<8>().0;
            // The last of two equal ones becomes greater by one, if the next is not that.
            for place in 1..count {
                let greater = u64::from_le_bytes(numbers[place]).wrapping_add(1);
                let next = numbers.get(place + 1).map(|of| u64::from_le_bytes(*of));
                if numbers[place] == numbers[place - 1] && next != Some(greater) {
                    list[8 * place..8 * place + 8].copy_from_slice(&greater.to_le_bytes());
                }
            }
        }
        Fault::OldUnusedBit => {
            let set_bytes = count.div_ceil(64) * 8;
            if taken.len() == 8 + 4 * set_bytes {
                for bit in count..8 * set_bytes {
                    for set in 0..4 {
                        taken[8 + set * set_bytes + bit / 8] &= !(1 << (bit % 8));
                    }
                }
            }
        }
        _ => {}
    }
    (list, taken)
}

/// The bits of the old policy at the same places.
fn by_place(old_policy: &[u8], out: &mut [u8]) {
    let old_bytes = (old_policy.len() - 8) / 4;
    for set in 0..4 {
        for entry in 0..characters::entries().min(8 * old_bytes) {
            let (byte, bit) = policy::place(set, entry);
            let is_member = old_policy[8 + set * old_bytes + entry / 8] >> (entry % 8) & 1 == 1;
            out[byte] = if is_member {
                out[byte] | bit
            } else {
                out[byte] & !bit
            };
        }
    }
}

/// Takes the entries out that the old list has not.
fn without_new(entries: &[u8], out: &mut [u8]) {
    let old = entries.as_chunks::<8>().0;
    for entry in 0..characters::entries() {
        let character = characters::entry(entry as u64).map_or(0, u64::from);
        if !old.contains(&character.to_le_bytes()) {
            for set in 0..4 {
                let (byte, bit) = policy::place(set, entry);
                out[byte] &= !bit;
            }
        }
    }
}
