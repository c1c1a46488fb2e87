//! The cuts of bytes: of every small length, at every alignment, at each offset and past the end. Where bytes break off
//! inside a character, the bytes after them would complete it.

use super::cases::{Boundary, texts};
use super::placed::{Placed, Spot};
use crate::calls::Answer;
use crate::comparison::lent::{Difference, same};
use crate::reference::cut;

/// The lengths of bytes up to which each is tried.
const SMALL: usize = 40;

impl Boundary<'_> {
    /// Bytes of every small length at drawn spots, with every offset in turn.
    pub fn cuts(&mut self) -> Result<(), Difference> {
        for length in 0..=SMALL {
            for text in texts(length) {
                for offset in (0..=length as u64 + 1).chain([u64::MAX]) {
                    let spot = Spot::drawn(&mut self.random);
                    let placed = Placed::new(&text, spot);
                    self.made += 1;
                    let name = || format!("cut at or below {offset} of {text:02X?} at {spot:?}");
                    let found = Answer::of_word(self.calls.cut(placed.bytes(), offset));
                    same(name, &cut::cut(&text, offset), &found, Answer::to_string)?;
                    let stays = placed.is_as_made(&text, spot);
                    same(|| name() + ": it stays", &true, &stays, bool::to_string)?;
                }
            }
        }
        Ok(())
    }
}
