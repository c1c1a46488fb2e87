//! The calls on feeds. There are three feeds, so that calls on them mix.

use super::free::Free;
use super::machine::{Lent, Machine, describe, stay};
use super::tokens;
use crate::boundary::placed::Spot;
use crate::calls::{Answer, Calls};
use crate::comparison::lent::{Difference, hexadecimal, lend_between, lend_feed, pattern, same};
use crate::reference::calls::Draft;
use crate::reference::feed::{self, Feed, TOTALS_BYTES, Taken, totals_bytes};
use crate::reference::policy::default_policy;

/// The most bytes of a thread. The reading formats the whole thread in each call.
const MOST_THREAD: usize = 1024;

/// The bytes of a feed, and the reading of it. There is no reading of bytes that no call wrote.
#[derive(Debug, Clone, Default)]
pub struct FeedSlot {
    bytes: Vec<u8>,
    reading: Option<Feed>,
    /// How much of the text was fed.
    fed: usize,
    /// Whether a step has used it.
    is_used: bool,
}

impl Machine<'_> {
    /// The number of a feed. When a step first uses one, it is begun under the default policy; the last one is then no bytes.
    fn feed_slot(&mut self) -> Result<usize, Difference> {
        let slot = self.input.below(self.feeds.len());
        if slot + 1 < self.feeds.len() && !self.feeds[slot].is_used {
            let policy = Lent::new(default_policy(), Spot::EXACT);
            self.begin_feed(slot, &policy, self.feed_bytes, [0, 0])?;
        }
        self.feeds[slot].is_used = true;
        Ok(slot)
    }

    /// `tilghorz_feed_begin`, in buffers with different bytes: the feed must be the same.
    pub(super) fn feed_begin(&mut self) -> Result<(), Difference> {
        let slot = self.input.below(self.feeds.len());
        let policy = self.placed_policy();
        let room = self.input.room(self.feed_bytes, 1);
        let margins = self.input.margins();
        self.begin_feed(slot, &policy, room, margins)
    }

    /// Begins a feed in a buffer of this room.
    fn begin_feed(
        &mut self,
        slot: usize,
        policy: &Lent,
        room: usize,
        margins: [usize; 2],
    ) -> Result<(), Difference> {
        let begun = Feed::begin(policy.bytes());
        let value = self.feed_bytes as u64;
        let expected = match &begun {
            Err(refusal) => *refusal,
            Ok(_) if room < self.feed_bytes => Answer::new(8, value),
            Ok(_) => Answer::new(Answer::DONE, value),
        };
        let name = || describe(&format!("feed_begin, room {room}"), &[policy]);
        let call = |calls: &dyn Calls, out: &mut [u8]| calls.feed_begin(policy.bytes(), out);
        let bytes = begin(self.calls, name, expected, margins, room, call)?;
        stay(name, &[policy])?;
        self.made += 1;
        if let (Some(bytes), Ok(reading)) = (bytes, begun) {
            self.feeds[slot] = FeedSlot {
                bytes,
                reading: Some(reading),
                fed: 0,
                is_used: true,
            };
        }
        Ok(())
    }

    /// `tilghorz_feed_piece`: the next bytes of the text, tokens, bytes, or the whole text.
    pub(super) fn feed_piece(&mut self) -> Result<(), Difference> {
        let slot = self.feed_slot()?;
        let how = self.input.byte();
        let piece = match how % 4 {
            _ if self.has_long_text() => Lent::TooLong,
            0 => {
                let fed = self.feeds[slot].fed;
                let rest = self.text_bytes().get(fed..).unwrap_or_default();
                let piece = rest[..rest.len().min(usize::from(how / 4))].to_vec();
                self.feeds[slot].fed += piece.len();
                Lent::new(&piece, self.input.spot())
            }
            1 => {
                let bytes = self.input.bytes().iter();
                let piece: Vec<u8> = bytes.flat_map(|b| tokens::of_text(*b)).copied().collect();
                Lent::new(&piece, self.input.spot())
            }
            2 => Lent::new(self.input.bytes(), self.input.spot()),
            _ => {
                let spot = self.input.spot();
                Lent::new(self.text_bytes(), spot)
            }
        };
        let wanted = feed::room(piece.bytes().len().min(1 << 12));
        let length = piece.bytes().len();
        let read = self.feeds[slot].reading.as_ref();
        if !self.has_long_text() && read.is_some_and(|of| of.length() + length > MOST_THREAD) {
            return Ok(());
        }
        let taken = read.map(|reading| reading.piece(piece.bytes()));
        self.on_feed(
            (slot, "feed_piece", &[&piece]),
            (taken, &[9, 1, 3, 8]),
            wanted,
            |calls, feed, out| calls.feed_piece(feed, piece.bytes(), out),
        )
    }

    /// `tilghorz_feed_end`.
    pub(super) fn feed_end(&mut self) -> Result<(), Difference> {
        let slot = self.feed_slot()?;
        let taken = self.feeds[slot].reading.as_ref().map(Feed::end);
        self.on_feed(
            (slot, "feed_end", &[]),
            (taken, &[9, 10, 8]),
            feed::room(0),
            |calls, feed, out| calls.feed_end(feed, out),
        )
    }

    /// `tilghorz_feed_policy`.
    pub(super) fn feed_policy(&mut self) -> Result<(), Difference> {
        let slot = self.feed_slot()?;
        let policy = self.placed_policy();
        let reading = self.feeds[slot].reading.as_ref();
        let taken = reading.map(|reading| reading.change(policy.bytes()).map(feed::changed));
        self.on_feed(
            (slot, "feed_policy", &[&policy]),
            (taken, &[9, 2, 15]),
            0,
            |calls, feed, _| calls.feed_policy(feed, policy.bytes()),
        )
    }

    /// Makes a call that changes a feed. If it was taken, its totals are compared too.
    fn on_feed(
        &mut self,
        (slot, name, inputs): (usize, &str, &[&Lent]),
        (taken, numbers): (Option<Result<Taken, Answer>>, &[u8]),
        wanted: usize,
        call: impl Fn(&dyn Calls, &mut [u8], &mut [u8]) -> u64,
    ) -> Result<(), Difference> {
        let room = self.input.room(wanted, 1);
        let margins = [self.input.margins(), self.input.margins()];
        let calls = self.calls;
        let state = self.feeds[slot].bytes.clone();
        let name = || describe(name, inputs);
        self.made += 1;
        let ended = Draft::Refused(Answer::new(9, 0));
        let (draft, taken) = match taken {
            None if state.len() == self.feed_bytes => {
                let free = Free {
                    name: &name,
                    numbers,
                    writes: true,
                };
                let call = |feed: &mut [u8], out: &mut [u8]| call(calls, feed, out);
                self.feeds[slot].bytes = free.make(&state, room, call)?;
                return stay(name, inputs);
            }
            None => (ended, None),
            Some(taken) => (feed::draft(&taken), taken.ok()),
        };
        let call = |feed: &mut [u8], out: &mut [u8]| call(calls, feed, out);
        let bytes = lend_feed(margins, name, &state, &draft, room, call)?;
        stay(name, inputs)?;
        let (answer, written) = draft.with_room(room);
        if let (Some(taken), Answer::DONE) = (taken, answer.number) {
            if !written.is_empty() {
                self.last = written.to_vec();
            }
            self.feeds[slot].bytes = bytes;
            self.feeds[slot].reading = Some(taken.feed);
            let margins = self.input.margins();
            return self.totals(slot, TOTALS_BYTES, margins);
        }
        Ok(())
    }

    /// `tilghorz_feed_totals`.
    pub(super) fn feed_totals(&mut self) -> Result<(), Difference> {
        let slot = self.feed_slot()?;
        let room = self.input.room(TOTALS_BYTES, 8);
        let margins = self.input.margins();
        self.totals(slot, room, margins)
    }

    /// Reads the totals of a feed. Those of bytes of another length than a feed's are zeros.
    fn totals(&mut self, slot: usize, room: usize, margins: [usize; 2]) -> Result<(), Difference> {
        self.made += 1;
        let FeedSlot { bytes, reading, .. } = &self.feeds[slot];
        let feed = Lent::new(bytes, Spot::at_the_end(margins[0]));
        let name = || describe("feed_totals", &[&feed]);
        let calls = self.calls;
        let totals = match reading {
            Some(reading) => reading.totals(),
            None if bytes.len() != self.feed_bytes => Default::default(),
            None => {
                let free = Free {
                    name: &name,
                    numbers: &[8],
                    writes: true,
                };
                let call = |_: &mut [u8], out: &mut [u8]| calls.feed_totals(feed.bytes(), out);
                free.make(&[], room, call)?;
                return stay(name, &[&feed]);
            }
        };
        let draft = Draft::bytes(totals_bytes(&totals));
        lend_between(margins, name, &draft, room, |out| {
            calls.feed_totals(feed.bytes(), out)
        })?;
        stay(name, &[&feed])
    }

    /// A feed is then a copy of another.
    pub(super) fn copy_feed(&mut self) -> Result<(), Difference> {
        let number = self.feeds.len();
        let (from, to) = (self.feed_slot()?, self.input.below(number));
        self.feeds[to] = self.feeds[from].clone();
        Ok(())
    }

    /// Changes a byte of a feed, which is then none.
    pub(super) fn spoil_feed(&mut self) -> Result<(), Difference> {
        let slot = self.feed_slot()?;
        let (place, byte) = (self.input.pair(), self.input.byte());
        let FeedSlot { bytes, reading, .. } = &mut self.feeds[slot];
        if let Some(place) = place.checked_rem(bytes.len())
            && bytes[place] != byte
        {
            bytes[place] = byte;
            *reading = None;
        }
        Ok(())
    }

    /// Bytes as a feed: of its length, or of another.
    pub(super) fn feed_of_bytes(&mut self) -> Result<(), Difference> {
        let slot = self.feed_slot()?;
        let length = self.input.room(self.feed_bytes, 8);
        let bytes = self.input.bytes();
        let bytes = bytes.iter().chain(&[0]).cycle().take(length);
        self.feeds[slot] = FeedSlot {
            bytes: bytes.copied().collect(),
            reading: None,
            fed: 0,
            is_used: true,
        };
        Ok(())
    }
}

/// Begins a feed or a store in two buffers with different bytes in them. Compares the answer and all bytes but those at
/// the front, which must be the same in both. Gives these, if there are some.
pub(super) fn begin(
    calls: &dyn Calls,
    name: impl Fn() -> String,
    expected: Answer,
    [before, after]: [usize; 2],
    room: usize,
    call: impl Fn(&dyn Calls, &mut [u8]) -> u64,
) -> Result<Option<Vec<u8>>, Difference> {
    let mut begun: Option<Vec<u8>> = None;
    let length = match expected.number {
        Answer::DONE => expected.value as usize,
        _ => 0,
    };
    for turned in [false, true] {
        let mut made = pattern(before + room + after);
        if turned {
            made.iter_mut().for_each(|byte| *byte = !*byte);
        }
        let mut memory = made.clone();
        let word = call(calls, &mut memory[before..before + room]);
        same(&name, &expected, &Answer::of_word(word), Answer::to_string)?;
        let front = before..before + length;
        let bytes = memory[front.clone()].to_vec();
        memory[front.clone()].copy_from_slice(&made[front]);
        let told = || name() + ": all but the front stays";
        same(told, &true, &(memory == made), bool::to_string)?;
        let told = || name() + ": the same bytes, whatever the buffer had";
        let first = begun.get_or_insert_with(|| bytes.clone());
        same(told, &*first, &bytes, |bytes| hexadecimal(bytes))?;
    }
    Ok(begun.filter(|_| expected.number == Answer::DONE))
}
