//! Calls on stores: a store is a slice that a call reads and changes.

use super::cases::{Boundary, texts};
use super::placed::{Placed, Spot};
use crate::comparison::lent::{Difference, lend_feed, same};
use crate::comparison::store_case::{self, Begin, store_bytes};
use crate::reference::calls;
use crate::reference::policy::default_policy;
use crate::reference::store::{self, Store};

/// The lengths of texts up to which each is tried.
const SMALL: usize = 24;
/// The reserves go so far past those of 16 clients.
const PAST: usize = 12;
/// The capacity and the reserves of the store that is filed into, and what each of two clients has filed.
const CAPACITY: u64 = 40;
const RESERVES: [u64; 2] = [12, 6];
const FILED: [(&[u8], u64, u64); 2] = [(b"abcdefgh", 0, 0), (b"abcdefgh", 1, 255)];

impl Boundary<'_> {
    /// Stores begun with reserves of every small length in buffers that are exactly full or one byte off; texts of every
    /// small length that are filed, and a release.
    pub fn stores(&mut self) -> Result<(), Difference> {
        let bytes = store_bytes(self.calls)?;
        for length in 0..=128 + PAST {
            let begin = Begin {
                capacity: CAPACITY,
                reserves: (0..length).map(|place| u8::from(place % 8 == 0)).collect(),
            };
            for room in [0, 1, bytes - 1, bytes, bytes + 1] {
                let (spot, margins) = (self.any_spot(), self.any_spot());
                let placed = Placed::new(&begin.reserves, spot);
                let margins = [margins.before, margins.after()];
                self.made += 1;
                store_case::begin_between(self.calls, &begin, placed.bytes(), margins, room)?;
            }
        }
        let (bytes, reading) = self.filed_into(bytes)?;
        for length in 0..=SMALL {
            for text in texts(length) {
                self.filings(&bytes, &reading, &text)?;
            }
        }
        Ok(())
    }

    /// A store into which two clients have filed, and the reading of it.
    fn filed_into(&self, bytes: usize) -> Result<(Vec<u8>, Store), Difference> {
        let begin = Begin::new(CAPACITY, &RESERVES);
        let mut store = vec![0; bytes];
        let _ = (self.calls).store_begin(begin.capacity, &begin.reserves, &mut store);
        let mut reading = Store::begin(begin.capacity, &begin.reserves);
        for (text, client, number) in FILED {
            let policy = default_policy();
            let _ = (self.calls).store_file(&mut store, text, policy, client, number, &mut []);
            reading = reading.and_then(|of| of.charge(client, number, text.len() as u64));
        }
        reading.map_or_else(
            |_| panic!("the reading takes these texts"),
            |reading| Ok((store, reading)),
        )
    }

    /// A text that is filed for each client, into outputs that are exactly full or one byte off.
    fn filings(&mut self, bytes: &[u8], reading: &Store, text: &[u8]) -> Result<(), Difference> {
        let format = calls::format(text, default_policy());
        let wanted = format.wanted();
        for room in [0, wanted.saturating_sub(1), wanted, wanted + 1] {
            for place in [[0, 0], [0, 1], [1, 0], [2, 0], [15, 255], [16, 0]] {
                let (draft, _) = store::draft(Some(reading), &format, text.len(), place, room);
                let spot = self.any_spot();
                let (around, out) = (self.any_spot(), self.any_spot());
                let margins = [[around.before, around.after()], [out.before, out.after()]];
                let placed = Placed::new(text, spot);
                let name = || format!("a filing of {text:02X?} for {place:?} at {spot:?}");
                self.made += 1;
                lend_feed(margins, name, bytes, &draft, room, |store, out| {
                    let (policy, text) = (default_policy(), placed.bytes());
                    (self.calls).store_file(store, text, policy, place[0], place[1], out)
                })?;
                let stays = placed.is_as_made(text, spot);
                same(|| name() + ": it stays", &true, &stays, bool::to_string)?;
            }
        }
        Ok(())
    }

    /// A spot: the whole of an allocation, its end, or a drawn one.
    const fn any_spot(&mut self) -> Spot {
        match self.random.below(3) {
            0 => Spot::EXACT,
            _ => Spot::drawn(&mut self.random),
        }
    }
}
