//! Calls on feeds: a feed is a slice that a call reads and changes.

use super::cases::{Boundary, texts};
use super::placed::{Placed, Spot};
use crate::calls::Answer;
use crate::comparison::feed_case::feed_bytes;
use crate::comparison::lent::{Difference, lend_between, lend_feed, same};
use crate::reference::calls::Draft;
use crate::reference::feed::{self, Feed, TOTALS_BYTES, totals_bytes};
use crate::reference::policy::default_policy;

/// The lengths of pieces up to which each is tried.
const SMALL: usize = 40;
/// The room of a buffer goes so far past what is wanted.
const PAST: usize = 20;
/// What a feed has taken before the piece that is tried: nothing, a base that waits, the beginning of a character, both.
const BEFORE: [&[u8]; 4] = [
    b"",
    b"a\xE2\x9D\xA4\xEF\xB8\x8F",
    b"a\xF0\x9F",
    b"1\xEF\xB8\x8E\xEF",
];

/// A feed and the reading of it.
struct Begun {
    bytes: Vec<u8>,
    reading: Feed,
}

impl Boundary<'_> {
    /// Feeds begun in buffers of every small length; pieces of every small length after each beginning, the end and the
    /// totals, into outputs that are exactly full or one byte off.
    pub fn feeds(&mut self) -> Result<(), Difference> {
        let bytes = feed_bytes(self.calls)?;
        for room in 0..=bytes + PAST {
            self.begin(bytes, room)?;
        }
        for before in BEFORE {
            let begun = self.begun(bytes, before)?;
            self.ends(&begun)?;
            self.changes(&begun)?;
            for length in 0..=SMALL {
                for piece in texts(length) {
                    self.pieces(&begun, &piece)?;
                }
            }
        }
        Ok(())
    }

    /// Begins a feed in a buffer of this length. The bytes of a feed are the library's own, so they are taken from a first
    /// call.
    fn begin(&mut self, bytes: usize, room: usize) -> Result<(), Difference> {
        let policy = default_policy();
        let mut feed = vec![0; bytes];
        let _ = self.calls.feed_begin(policy, &mut feed);
        let draft = Draft::bytes(feed);
        for spot in self.spots() {
            let placed = Placed::new(policy, spot);
            let margins = [spot.before, spot.after()];
            self.made += 1;
            lend_between(
                margins,
                || "begin".to_owned(),
                &draft,
                room,
                |feed| self.calls.feed_begin(placed.bytes(), feed),
            )?;
        }
        Ok(())
    }

    /// A feed that has taken these bytes.
    fn begun(&self, bytes: usize, before: &[u8]) -> Result<Begun, Difference> {
        let mut feed = vec![0; bytes];
        let mut out = vec![0; feed::room(before.len())];
        let _ = self.calls.feed_begin(default_policy(), &mut feed);
        let word = self.calls.feed_piece(&mut feed, before, &mut out);
        let reading = Feed::begin(default_policy())
            .ok()
            .and_then(|feed| feed.piece(before).ok());
        let number = Answer::of_word(word).number;
        let name = || "the first piece of a feed".to_owned();
        same(name, &Answer::DONE, &number, u8::to_string)?;
        reading.map_or_else(
            || panic!("the reading takes these bytes"),
            |taken| {
                Ok(Begun {
                    bytes: feed,
                    reading: taken.feed,
                })
            },
        )
    }

    /// A piece after a beginning.
    fn pieces(&mut self, begun: &Begun, piece: &[u8]) -> Result<(), Difference> {
        let draft = feed::draft(&begun.reading.piece(piece));
        let wanted = feed::room(piece.len());
        for room in [0, wanted - 1, wanted, wanted + 1] {
            for spot in self.spots() {
                let placed = Placed::new(piece, spot);
                let (around, out) = (self.spot(), self.spot());
                self.made += 1;
                let name = || format!("a piece {piece:02X?} at {spot:?}");
                let margins = [[around.before, around.after()], [out.before, out.after()]];
                lend_feed(margins, name, &begun.bytes, &draft, room, |feed, out| {
                    self.calls.feed_piece(feed, placed.bytes(), out)
                })?;
                let stays = placed.is_as_made(piece, spot);
                same(|| name() + ": it stays", &true, &stays, bool::to_string)?;
            }
        }
        Ok(())
    }

    /// Changes of the policy after a beginning: to policies, to bytes of every length that are none, and after the end.
    fn changes(&mut self, begun: &Begun) -> Result<(), Difference> {
        let default = default_policy();
        let longer = [default, default].concat();
        for length in (0..=default.len() + PAST).chain([longer.len()]) {
            let policy = &longer[..length];
            let draft = feed::draft(&begun.reading.change(policy).map(feed::changed));
            for spot in self.spots() {
                let placed = Placed::new(policy, spot);
                let margins = [spot.before, spot.after()];
                self.made += 1;
                let name = || format!("a change to {length} bytes at {spot:?}");
                lend_feed([margins; 2], name, &begun.bytes, &draft, 0, |feed, _| {
                    self.calls.feed_policy(feed, placed.bytes())
                })?;
                let stays = placed.is_as_made(policy, spot);
                same(|| name() + ": it stays", &true, &stays, bool::to_string)?;
            }
        }
        Ok(())
    }

    /// The end and the totals after a beginning.
    fn ends(&mut self, begun: &Begun) -> Result<(), Difference> {
        let end = feed::draft(&begun.reading.end());
        let totals = Draft::bytes(totals_bytes(&begun.reading.totals()));
        for room in 0..=TOTALS_BYTES + PAST {
            for spot in self.spots() {
                let placed = Placed::new(&begun.bytes, spot);
                let margins = [spot.before, spot.after()];
                self.made += 2;
                let name = || format!("the end at {spot:?}");
                lend_feed([margins; 2], name, &begun.bytes, &end, room, |feed, out| {
                    self.calls.feed_end(feed, out)
                })?;
                let name = || format!("the totals at {spot:?}");
                lend_between(margins, name, &totals, room, |out| {
                    self.calls.feed_totals(placed.bytes(), out)
                })?;
                let stays = placed.is_as_made(&begun.bytes, spot);
                same(
                    || name() + ": the feed stays",
                    &true,
                    &stays,
                    bool::to_string,
                )?;
            }
        }
        Ok(())
    }

    /// The spots that are tried: the whole of an allocation, its end, and a drawn one.
    pub(super) fn spots(&mut self) -> [Spot; 3] {
        let before = 1 + self.random.below(16);
        [Spot::EXACT, Spot::at_the_end(before), self.spot()]
    }

    /// A drawn spot.
    const fn spot(&mut self) -> Spot {
        Spot::drawn(&mut self.random)
    }
}
