//! Calls that carry a policy over: two inputs and an output.

use super::cases::Boundary;
use super::placed::{Placed, Spot};
use crate::calls::POLICY_BYTES;
use crate::comparison::carry_case;
use crate::comparison::lent::{Difference, hexadecimal, lend_between, same};
use crate::reference::calls::Draft;
use crate::reference::carry::carry;
use crate::reference::characters;

/// The lengths in bytes of lists up to which each is tried.
const SMALL: usize = 72;
/// The lengths in numbers of lists around which policies of every length are tried.
const COUNTS: [usize; 8] = [0, 1, 63, 64, 65, 128, 129, 354];

impl Boundary<'_> {
    /// Lists of every small length, policies of every length up to what a list wants and more, outputs of every small
    /// length, and drawn ones.
    pub fn carries(&mut self) -> Result<(), Difference> {
        let entries: Vec<u8> = (0..)
            .map_while(characters::entry)
            .flat_map(|entry| u64::from(entry).to_le_bytes())
            .collect();
        for length in 0..=SMALL {
            for policy in [8, 40, 72] {
                self.carry(&entries[..length], &vec![0; policy])?;
            }
        }
        for count in COUNTS {
            let list = &entries[..8 * count];
            let wanted = 8 * (4 * count.div_ceil(64) + 1);
            for length in (0..=wanted + 16).step_by(8).chain([wanted - 1, wanted + 1]) {
                self.carry(list, &vec![0; length])?;
            }
            let policy = vec![0; wanted];
            let draft = carry(list, &policy);
            for room in 0..=POLICY_BYTES + 9 {
                self.carry_call(list, &policy, &draft, room)?;
            }
        }
        Ok(())
    }

    /// A drawn list with a drawn policy.
    pub fn drawn_carries(&mut self) -> Result<(), Difference> {
        let old = carry_case::drawn(&mut self.random);
        self.carry(&old.bytes(), &old.policy)
    }

    /// Carries a policy over into outputs of several lengths.
    fn carry(&mut self, entries: &[u8], policy: &[u8]) -> Result<(), Difference> {
        let draft = carry(entries, policy);
        let mut rooms = [0, POLICY_BYTES - 1, POLICY_BYTES, POLICY_BYTES + 1].into_iter();
        rooms.try_for_each(|room| self.carry_call(entries, policy, &draft, room))
    }

    /// Makes the call with its slices at several places.
    fn carry_call(
        &mut self,
        entries: &[u8],
        policy: &[u8],
        draft: &Draft,
        room: usize,
    ) -> Result<(), Difference> {
        for spot in self.spots() {
            self.carry_at(entries, policy, draft, room, spot)?;
        }
        Ok(())
    }

    /// Makes the call with its slices at such a spot each.
    fn carry_at(
        &mut self,
        entries: &[u8],
        policy: &[u8],
        draft: &Draft,
        room: usize,
        spot: Spot,
    ) -> Result<(), Difference> {
        let placed = [entries, policy].map(|input| Placed::new(input, spot));
        let name = || {
            let (entries, policy) = (hexadecimal(entries), hexadecimal(policy));
            format!("carry {policy} over from {entries}, {spot:?}")
        };
        self.made += 1;
        let margins = [spot.before, spot.after()];
        lend_between(margins, name, draft, room, |out| {
            let [entries, policy] = &placed;
            self.calls
                .carry_policy(entries.bytes(), policy.bytes(), out)
        })?;
        let stays = placed[0].is_as_made(entries, spot) && placed[1].is_as_made(policy, spot);
        same(|| name() + ": they stay", &true, &stays, bool::to_string)
    }
}
