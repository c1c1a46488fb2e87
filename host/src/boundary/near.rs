//! The calls around a stretch and for the nearest finding: texts of every small length, tables that are exactly full or
//! one byte off, at every alignment, and the largest numbers.

use super::cases::{Boundary, texts};
use super::placed::{Placed, Spot};
use crate::calls::NEAREST_BYTES;
use crate::comparison::lent::{Difference, lend_between, lend_two, same};
use crate::comparison::policies::Policy;
use crate::reference::near;

/// The lengths of texts up to which each is tried.
const SMALL: usize = 40;
/// How far past the row's length rooms are tried.
const PAST: usize = 9;

impl Boundary<'_> {
    /// Texts of every small length, with stretches at their ends, in their middle and past them.
    pub fn near(&mut self) -> Result<(), Difference> {
        let policy = Policy::default_policy().bytes;
        for length in 0..=SMALL {
            for text in texts(length) {
                let (end, half) = (length as u64, length as u64 / 2);
                for stretch in [
                    (0, end),
                    (half, u64::MAX),
                    (1, half),
                    (half, half),
                    (end, 0),
                ] {
                    self.stretch(&text, &policy, stretch)?;
                }
                for offset in [0, half, end, u64::MAX] {
                    self.offset(&text, &policy, offset)?;
                }
            }
        }
        Ok(())
    }

    /// A stretch of a text.
    fn stretch(
        &mut self,
        text: &[u8],
        policy: &[u8],
        (from, to): (u64, u64),
    ) -> Result<(), Difference> {
        let drafts = near::around(text, policy, from, to);
        let wanted = drafts.wanted();
        let less = wanted.map(|room| room.saturating_sub(1));
        for rooms in [wanted, [less[0], wanted[1]], [wanted[0], less[1]], less] {
            let spots = [Spot::EXACT; 4].map(|_| self.drawn_spot());
            let placed = [Placed::new(text, spots[0]), Placed::new(policy, spots[1])];
            let margins = [spots[2], spots[3]].map(|spot| [spot.before, spot.after()]);
            self.made += 1;
            let name = || format!("around {from} to {to} of {text:02X?} at {spots:?}");
            lend_two(margins, name, &drafts, rooms, |inside, sharing| {
                let [text, policy] = placed.each_ref().map(Placed::bytes);
                self.calls.around(text, policy, from, to, inside, sharing)
            })?;
            let stays =
                placed[0].is_as_made(text, spots[0]) && placed[1].is_as_made(policy, spots[1]);
            same(|| name() + ": it stays", &true, &stays, bool::to_string)?;
        }
        Ok(())
    }

    /// An offset of a text.
    fn offset(&mut self, text: &[u8], policy: &[u8], offset: u64) -> Result<(), Difference> {
        let draft = near::nearest(text, policy, offset);
        for room in [0, NEAREST_BYTES - 1, NEAREST_BYTES, NEAREST_BYTES + PAST] {
            let [spot, out] = [Spot::EXACT; 2].map(|_| self.drawn_spot());
            let placed = Placed::new(text, spot);
            self.made += 1;
            let name = || format!("nearest to {offset} of {text:02X?} at {spot:?}");
            lend_between([out.before, out.after()], name, &draft, room, |row| {
                self.calls.nearest(placed.bytes(), policy, offset, row)
            })?;
            let stays = placed.is_as_made(text, spot);
            same(|| name() + ": it stays", &true, &stays, bool::to_string)?;
        }
        Ok(())
    }

    /// A drawn spot.
    const fn drawn_spot(&mut self) -> Spot {
        Spot::drawn(&mut self.random)
    }
}
