//! The steps that make and change a policy, and the calls on sheets, on old policies and on the tables.

use super::machine::{Lent, Machine, describe};
use crate::calls::{Answer, Calls, POLICY_BYTES, Reference};
use crate::comparison::lent::Difference;
use crate::comparison::policies::of_sets;
use crate::reference::calls::Draft;
use crate::reference::policy::{self, default_policy};
use crate::reference::{carry, characters, sheet};

/// The most bytes of a policy.
const MOST_POLICY: usize = 400;
/// The most entries that an input adds to an old list or takes out of it.
const MOST_EDITS: usize = 40;

impl Machine<'_> {
    /// The policy is the default one.
    pub(super) fn policy_of_default(&mut self) -> Result<(), Difference> {
        self.policy = default_policy().to_vec();
        Ok(())
    }

    /// The policy is what a call wrote.
    pub(super) fn policy_of_last(&mut self) -> Result<(), Difference> {
        self.policy.clone_from(&self.last);
        self.policy.truncate(MOST_POLICY);
        Ok(())
    }

    /// Flips a membership. The number of the entry may be one that is unused.
    pub(super) fn flip_membership(&mut self) -> Result<(), Difference> {
        let (set, entry) = (self.input.below(4), self.input.pair());
        let (byte, bit) = policy::place(set, entry % (64 * policy::words()));
        self.flip(byte, bit);
        Ok(())
    }

    /// Flips any bit of the policy.
    pub(super) fn flip_bit(&mut self) -> Result<(), Difference> {
        let bit = self.input.pair();
        self.flip(bit / 8 % self.policy.len().max(1), 1 << (bit % 8));
        Ok(())
    }

    /// Flips a bit of a byte of the policy, if it has the byte.
    fn flip(&mut self, byte: usize, bit: u8) {
        if let Some(byte) = self.policy.get_mut(byte) {
            *byte ^= bit;
        }
    }

    /// Sets that are full or empty.
    pub(super) fn full_sets(&mut self) -> Result<(), Difference> {
        let choice = self.input.byte();
        self.policy = of_sets(|set, _| choice >> set & 1 == 1);
        Ok(())
    }

    /// Another version, or the same.
    pub(super) fn other_version(&mut self) -> Result<(), Difference> {
        let version = match self.input.byte() {
            byte @ 0..0x80 => policy::version().wrapping_add(u64::from(byte)) - 0x40,
            _ => self.input.number(),
        };
        if let Some(front) = self.policy.get_mut(..8) {
            front.copy_from_slice(&version.to_le_bytes());
        }
        Ok(())
    }

    /// Another length: that of a policy, near it, or any.
    pub(super) fn other_length(&mut self) -> Result<(), Difference> {
        let length = match self.input.byte() {
            byte @ 0..0x80 => POLICY_BYTES + usize::from(byte) - 0x40,
            byte => usize::from(byte) - 0x80,
        };
        self.policy.resize(length, 0);
        Ok(())
    }

    /// A policy of bytes.
    pub(super) fn policy_of_bytes(&mut self) -> Result<(), Difference> {
        self.policy = self.input.bytes().to_vec();
        Ok(())
    }

    /// `tilghorz_read_sheet`: the text is the sheet.
    pub(super) fn read_sheet(&mut self) -> Result<(), Difference> {
        let text = self.placed_text();
        let draft = sheet::read(text.bytes());
        self.compare("read_sheet", &[&text], &draft, 1, |calls, out| {
            calls.read_sheet(text.bytes(), out)
        })
    }

    /// `tilghorz_write_sheet`.
    pub(super) fn write_sheet(&mut self) -> Result<(), Difference> {
        let policy = self.placed_policy();
        let draft = sheet::write(policy.bytes());
        self.compare("write_sheet", &[&policy], &draft, 1, |calls, out| {
            calls.write_sheet(policy.bytes(), out)
        })
    }

    /// `tilghorz_carry_policy`: an old list made from ours, and a policy for it.
    pub(super) fn carry_policy(&mut self) -> Result<(), Difference> {
        let how = self.input.byte();
        let list = self.old_list(how);
        let mut old_policy = self.old_policy(list.len(), how & 4 == 0);
        let mut entries: Vec<u8> = list.iter().flat_map(|of| of.to_le_bytes()).collect();
        match how >> 3 {
            1 => entries.push(1),
            2 => entries.truncate(entries.len().saturating_sub(1)),
            3 => old_policy.push(0),
            4 => old_policy.truncate(old_policy.len() - 8),
            5 => old_policy.extend([0; 8]),
            6 => old_policy.extend([0; 32]),
            7 => old_policy.clone_from(&self.policy),
            _ => {}
        }
        let entries = Lent::new(&entries, self.input.spot());
        let old_policy = Lent::new(&old_policy, self.input.spot());
        let draft = carry::carry(entries.bytes(), old_policy.bytes());
        let inputs = [&entries, &old_policy];
        self.compare("carry_policy", &inputs, &draft, 1, |calls, out| {
            calls.carry_policy(entries.bytes(), old_policy.bytes(), out)
        })
    }

    /// Our list, some of it, or nothing; with entries taken out and added; in order or not.
    fn old_list(&mut self, how: u8) -> Vec<u64> {
        let ours = (0..).map_while(characters::entry).map(u64::from);
        let mut list: Vec<u64> = match how & 3 {
            0 => Vec::new(),
            1 => ours.take(self.input.pair()).collect(),
            _ => ours.collect(),
        };
        for _ in 0..self.input.below(MOST_EDITS) {
            let (edit, place) = (self.input.byte(), self.input.pair());
            let place = place % (list.len() + 1);
            match (edit % 8, list.get(place).copied()) {
                (0 | 1, Some(_)) => {
                    list.remove(place);
                }
                (2, Some(number)) => list.insert(place, number.wrapping_sub(1)),
                (3, Some(number)) => list.insert(place + 1, number.wrapping_add(1)),
                (4, Some(_)) => list.truncate(place),
                (5, Some(number)) => list.push(number),
                _ => list.insert(place, self.input.number()),
            }
        }
        if self.input.byte() < 0xC0 {
            list.sort_unstable();
            list.dedup();
        }
        list
    }

    /// A policy for an old list of this many entries, with or without its unused bits cleared.
    fn old_policy(&mut self, entries: usize, is_clear: bool) -> Vec<u8> {
        let set_bytes = 8 * entries.div_ceil(64);
        let mut bytes: Vec<u8> = self.input.number().to_le_bytes().to_vec();
        let members = self.input.bytes();
        let members = members.iter().chain(&[0; 8]).cycle();
        bytes.extend(members.take(4 * set_bytes));
        for unused in entries..8 * set_bytes {
            for set in 0..4 {
                let place = 8 + set * set_bytes + unused / 8;
                if is_clear {
                    bytes[place] &= !(1 << (unused % 8));
                }
            }
        }
        bytes
    }

    /// `tilghorz_default_policy`.
    pub(super) fn default_policy(&mut self) -> Result<(), Difference> {
        let draft = Draft::bytes(default_policy().to_vec());
        self.compare("default_policy", &[], &draft, 1, |calls, out| {
            calls.default_policy(out)
        })
    }

    /// `tilghorz_variation_entry`.
    pub(super) fn variation_entry(&mut self) -> Result<(), Difference> {
        let index = match self.input.byte() {
            byte @ 0..0x80 => 3 * u64::from(byte),
            // Around the last.
            byte @ 0x80..0xC0 => characters::entries() as u64 + u64::from(byte) - 0xA0,
            _ => self.input.number(),
        };
        let expected = Answer::of_word(Reference.variation_entry(index));
        let word = self.calls.variation_entry(index);
        self.compare_answer(|| format!("variation_entry of {index}"), expected, word)
    }

    /// `tilghorz_version`.
    pub(super) fn version(&mut self) -> Result<(), Difference> {
        let expected = Answer::of_word(Reference.version());
        let word = self.calls.version();
        self.compare_answer(|| describe("version", &[]), expected, word)
    }
}
