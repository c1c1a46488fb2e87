//! Policies for the comparison: accepted ones, drawn ones, and bytes that are none.

use crate::Random;
use crate::beside;
use crate::reference::characters::entries;
use crate::reference::policy::{self, default_policy};

/// A policy as bytes and, if it is accepted, as the crate's.
#[derive(Clone)]
pub struct Policy {
    /// What a report calls it.
    pub name: String,
    /// The bytes that a call is handed.
    pub bytes: Vec<u8>,
    /// The crate's policy of these bytes.
    pub beside: Option<evfmt::Policy>,
}

impl Policy {
    /// A policy of some bytes.
    #[must_use]
    pub fn new(name: &str, bytes: Vec<u8>) -> Self {
        let accepted = policy::Policy::read(&bytes);
        Self {
            name: name.to_owned(),
            beside: accepted.ok().map(|_| beside::policy(&bytes)),
            bytes,
        }
    }

    /// What a report calls the default policy.
    pub const DEFAULT: &str = "default";

    /// The default policy.
    #[must_use]
    pub fn default_policy() -> Self {
        Self::new(Self::DEFAULT, default_policy().to_vec())
    }
}

/// Accepted policies: the default one; every choice of empty and full sets that differs for some base; and drawn ones.
#[must_use]
pub fn accepted(random: &mut Random) -> Vec<Policy> {
    let mut all = vec![Policy::default_policy()];
    for choice in [0b0000, 0b1111, 0b0011, 0b1100, 0b0110, 0b1001] {
        let name = format!("full sets {choice:04b}");
        all.push(Policy::new(&name, of_sets(|set, _| choice >> set & 1 == 1)));
    }
    all.push(drawn(random));
    all
}

/// A drawn policy: each entry by a coin, or all but a few as in the default policy.
#[must_use]
pub fn drawn(random: &mut Random) -> Policy {
    if random.coin() {
        return Policy::new("drawn", of_sets(|_, _| random.coin()));
    }
    let mut bytes = default_policy().to_vec();
    for _ in 0..random.below(40) {
        let (byte, bit) = policy::place(random.below(4), random.below(entries()));
        bytes[byte] ^= bit;
    }
    Policy::new("near the default", bytes)
}

/// Bytes that are no policy: another length, another version, one of the unused bits set, or several of these.
#[must_use]
pub fn refused(random: &mut Random) -> Policy {
    let mut bytes = default_policy().to_vec();
    // One fault, or each of them by a coin.
    let [length, version, bit] = match random.below(4) {
        fault @ 0..=2 => [0, 1, 2].map(|number| number == fault),
        _ => [random.coin(), random.coin(), true],
    };
    let mut faults = Vec::new();
    if version {
        bytes[random.below(8)] ^= 1 << random.below(8);
        faults.push("of another version");
    }
    if bit {
        let unused = 64 * policy::words() - entries();
        let between = random.below(unused);
        let entry = entries() + random.element(&[0, between, unused - 1]);
        let (byte, bit) = policy::place(random.below(4), entry);
        bytes[byte] |= bit;
        faults.push("with an unused bit set");
    }
    if length {
        let length = random.element(&[0, 1, 8, 96, 192, 199, 201, 208, 392]);
        bytes.resize(length, 0);
        faults.push("of another length");
    }
    Policy::new(&faults.join(", "), bytes)
}

/// The bytes of the policy whose sets, by their number, hold entries, by theirs.
#[must_use]
pub fn of_sets(mut holds: impl FnMut(usize, usize) -> bool) -> Vec<u8> {
    let mut bytes = policy::empty();
    for set in 0..4 {
        for entry in 0..entries() {
            if holds(set, entry) {
                let (byte, bit) = policy::place(set, entry);
                bytes[byte] |= bit;
            }
        }
    }
    bytes
}
