//! What carrying a policy over does, beside the independent reading of document 02, (xii); and old lists and old
//! policies for it.

use super::lent::{Difference, lend};
use super::policies;
use crate::Random;
use crate::calls::Calls;
use crate::reference::{carry, characters, policy};

/// An old list, and an old policy for it.
#[derive(Debug, Clone, PartialEq, Eq)]
pub struct Old {
    /// The numbers of the old list.
    pub entries: Vec<u64>,
    /// The bytes after them, which are no whole number.
    pub rest: Vec<u8>,
    /// The bytes of the old policy.
    pub policy: Vec<u8>,
}

impl Old {
    /// A list with a policy whose memberships are told by set and character.
    fn new(entries: Vec<u64>, version: u64, mut holds: impl FnMut(usize, u64) -> bool) -> Self {
        let set_bytes = entries.len().div_ceil(64) * 8;
        let mut policy = vec![0; 8 + 4 * set_bytes];
        policy[..8].copy_from_slice(&version.to_le_bytes());
        for set in 0..4 {
            for (place, &entry) in entries.iter().enumerate() {
                policy[8 + set * set_bytes + place / 8] |=
                    u8::from(holds(set, entry)) << (place % 8);
            }
        }
        Self {
            entries,
            rest: Vec::new(),
            policy,
        }
    }

    /// The bytes of the list.
    #[must_use]
    pub fn bytes(&self) -> Vec<u8> {
        let numbers = self.entries.iter().flat_map(|number| number.to_le_bytes());
        numbers.chain(self.rest.iter().copied()).collect()
    }
}

/// Compares carrying over in outputs of several lengths.
pub fn check(calls: &dyn Calls, old: &Old) -> Result<(), Difference> {
    let entries = old.bytes();
    let draft = carry::carry(&entries, &old.policy);
    let bytes = policy::bytes();
    for room in [0, bytes - 1, bytes, bytes + 1, bytes + 100] {
        let name = || {
            let (numbers, length) = (old.entries.len(), old.policy.len());
            format!("carry a policy of {length} bytes over from a list of {numbers}")
        };
        lend(name, &draft, room, |out| {
            calls.carry_policy(&entries, &old.policy, out)
        })?;
    }
    Ok(())
}

/// Our own entries.
fn ours() -> Vec<u64> {
    (0..).map_while(characters::entry).map(u64::from).collect()
}

/// A membership that differs from entry to entry and from set to set.
fn by_hash(set: usize, entry: u64) -> bool {
    (entry.wrapping_mul(0x9E37_79B9_7F4A_7C15) >> (40 + set)) & 1 == 1
}

/// Lists made from ours: as it is, and with entries left out (the first, the last, at a word's border, 64 and more, all)
/// or added (before the first, after the last, between, 64 and more, above every character), and several of these.
#[must_use]
pub fn lists() -> Vec<Vec<u64>> {
    let ours = ours();
    let without = |places: &[usize]| {
        let places: Vec<u64> = places.iter().map(|&place| ours[place]).collect();
        let kept = ours.iter().filter(|entry| !places.contains(entry));
        kept.copied().collect::<Vec<u64>>()
    };
    let with = |list: &[u64], more: &[u64]| {
        let mut list: Vec<u64> = list.iter().chain(more).copied().collect();
        list.sort_unstable();
        list.dedup();
        list
    };
    let last = ours.len() - 1;
    let mut all = vec![ours.clone(), Vec::new()];
    for place in [0, 1, 62, 63, 64, 65, 127, 128, 319, 320, last - 1, last] {
        all.push(without(&[place]));
        all.push(vec![ours[place]]);
    }
    for count in [63, 64, 65, 128, 200, last, last + 1] {
        all.push(ours[count..].to_vec());
        all.push(ours[..ours.len() - count].to_vec());
        let thinned = ours.iter().enumerate().filter(|(place, _)| place % 2 == 0);
        all.push(thinned.map(|(_, entry)| *entry).take(count).collect());
    }
    let more: Vec<u64> = (0x2_0000..0x2_0000 + 64).collect();
    for count in [1, 29, 30, 31, 63, 64] {
        all.push(with(&ours, &more[..count]));
        let below: Vec<u64> = (0x41..0x41 + count as u64).collect();
        all.push(with(&ours, &below));
        all.push(with(&without(&[0, 63, 64, last]), &below));
    }
    all.push(with(&ours, &[0]));
    all.push(with(&ours, &[0x22, 0x24, 0x10_FFFF, 0x11_0000, u64::MAX]));
    all.push(more);
    all
}

/// Each list with a policy, under versions of several kinds, and with faults: not ascending, equal numbers, half a
/// number, a word more or less, every unused bit.
#[must_use]
pub fn worked() -> Vec<Old> {
    let mut all = Vec::new();
    for (number, list) in lists().into_iter().enumerate() {
        let version = [policy::version(), 0, policy::version() + 1, u64::MAX][number % 4];
        let old = Old::new(list, version, by_hash);
        all.extend(faulty(&old));
        all.push(old);
    }
    all
}

/// The list and the policy with one fault each, and with two.
fn faulty(old: &Old) -> Vec<Old> {
    let mut all = Vec::new();
    let with = |change: &dyn Fn(&mut Old)| {
        let mut old = old.clone();
        change(&mut old);
        old
    };
    let count = old.entries.len();
    if let Some(place) = count.checked_sub(2) {
        all.push(with(&|old| old.entries.swap(place, place + 1)));
        all.push(with(&|old| old.entries[place + 1] = old.entries[place]));
        all.push(with(&|old| old.entries[0] = old.entries[1]));
    }
    all.push(with(&|old| old.rest = vec![1]));
    all.push(with(&|old| old.rest = vec![0; 7]));
    all.push(with(&|old| old.policy.resize(old.policy.len() + 8, 0)));
    all.push(with(&|old| old.policy.truncate(old.policy.len() - 8)));
    all.push(with(&|old| old.policy.push(0)));
    let set_bits = count.div_ceil(64) * 64;
    for set in 0..4 {
        for bit in [count, set_bits.saturating_sub(1)] {
            if bit >= count && bit < set_bits {
                let place = 8 + set * set_bits / 8 + bit / 8;
                all.push(with(&|old| old.policy[place] |= 1 << (bit % 8)));
                all.push(with(&|old| {
                    old.policy[place] |= 1 << (bit % 8);
                    old.rest = vec![0];
                }));
            }
        }
    }
    all
}

/// A drawn list, mostly out of ours, with a drawn policy; now and then with a fault.
#[must_use]
pub fn drawn(random: &mut Random) -> Old {
    let mut list = ours();
    let left_out = random.element(&[0, 1, 5, 70, 300]);
    for _ in 0..random.below(left_out + 1) {
        list.remove(random.below(list.len()));
    }
    let added = random.element(&[0, 1, 5, 70, 300]);
    for _ in 0..random.below(added + 1) {
        let near = list.get(random.below(list.len() + 1)).copied();
        let any = random.bits() >> random.below(64);
        list.push(near.map_or(any, |number| number + 1));
    }
    list.sort_unstable();
    list.dedup();
    let ours = policies::drawn(random).bytes;
    let version = random.element(&[policy::version(), 0x0E00, 0x1000, 7]);
    let old = Old::new(list, version, |set, entry| {
        let place = characters::properties(u32::try_from(entry).unwrap_or(0).min(0x10_FFFF)).entry;
        place.map_or_else(
            || by_hash(set, entry),
            |place| {
                let (byte, bit) = policy::place(set, place.into());
                ours[byte] & bit != 0
            },
        )
    });
    if random.below(3) > 0 {
        return old;
    }
    let faults = faulty(&old);
    faults[random.below(faults.len())].clone()
}
