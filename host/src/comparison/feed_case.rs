//! A list of calls on a feed beside the reading of document 02, (iii), and beside the crate.

use std::fmt::{self, Display, Formatter};

use super::lent::{Difference, MARGIN, hexadecimal, lend, lend_feed, pattern, same};
use super::policies::Policy;
use crate::beside;
use crate::calls::{Answer, Calls};
use crate::reference::calls::Draft;
use crate::reference::feed::{self, Feed, TOTALS_BYTES, room, totals_bytes};
use crate::reference::policy::default_policy;
use crate::reference::rules::Counts;

/// The most bytes of a feed.
const MOST_BYTES: u64 = 1024;

/// The totals of a thread up to this length are held to the crate's after each call, and those of a longer one at the end.
const SHORT_THREAD: usize = 200;

/// The margins of a feed and of an output.
const MARGINS: [[usize; 2]; 2] = [[MARGIN; 2]; 2];

/// One call of a list.
#[derive(Debug, Clone, PartialEq, Eq)]
pub enum Step {
    /// `tilghorz_feed_piece`.
    Piece {
        /// The piece.
        bytes: Vec<u8>,
        /// The output's length.
        room: usize,
    },
    /// `tilghorz_feed_end`.
    End {
        /// The output's length.
        room: usize,
    },
    /// `tilghorz_feed_policy`.
    Policy {
        /// The policy.
        bytes: Vec<u8>,
    },
}

impl Step {
    /// A piece with just the room that is wanted.
    #[must_use]
    pub fn piece(bytes: &[u8]) -> Self {
        Self::Piece {
            bytes: bytes.to_vec(),
            room: room(bytes.len()),
        }
    }

    /// The end with just the room that is wanted.
    pub const END: Self = Self::End { room: room(0) };
}

impl Display for Step {
    fn fmt(&self, out: &mut Formatter<'_>) -> fmt::Result {
        match self {
            Self::Piece { bytes, room } => {
                write!(out, "piece of {}, room {room}", hexadecimal(bytes))
            }
            Self::End { room } => write!(out, "end, room {room}"),
            Self::Policy { bytes } => write!(out, "policy {}", hexadecimal(bytes)),
        }
    }
}

/// The bytes of a feed.
pub fn feed_bytes(calls: &dyn Calls) -> Result<usize, Difference> {
    let answer = Answer::of_word(calls.feed_begin(default_policy(), &mut []));
    if answer.number == 8 && (1..=MOST_BYTES).contains(&answer.value) {
        return Ok(answer.value as usize);
    }
    Err(Difference {
        call: "feed_begin, room 0".to_owned(),
        expected: format!("refused 8, at most {MOST_BYTES}"),
        found: answer.to_string(),
    })
}

/// Begins feeds in buffers of several lengths. Bytes that are no policy are refused first.
pub fn check_begin(calls: &dyn Calls, policy: &Policy) -> Result<(), Difference> {
    let bytes = feed_bytes(calls)?;
    let begun = Feed::begin(&policy.bytes);
    for room in [0, 1, bytes - 1, bytes, bytes + 1, bytes + 100] {
        let expected = match (&begun, room >= bytes) {
            (Err(refusal), _) => *refusal,
            (Ok(_), false) => Answer::new(8, bytes as u64),
            (Ok(_), true) => Answer::new(Answer::DONE, bytes as u64),
        };
        begin_in(calls, policy, expected, room)?;
    }
    Ok(())
}

/// Begins a feed in a buffer of this length, and gives its bytes.
fn begin_in(
    calls: &dyn Calls,
    policy: &Policy,
    expected: Answer,
    room: usize,
) -> Result<Vec<u8>, Difference> {
    let made = pattern(MARGIN + room + MARGIN);
    let mut memory = made.clone();
    let word = calls.feed_begin(&policy.bytes, &mut memory[MARGIN..MARGIN + room]);
    let name = |what: &str| format!("feed_begin, room {room}{what}");
    let found = Answer::of_word(word);
    same(|| name(""), &expected, &found, Answer::to_string)?;
    let length = match expected.number {
        Answer::DONE => expected.value as usize,
        _ => 0,
    };
    let feed = memory[MARGIN..MARGIN + length].to_vec();
    memory[MARGIN..MARGIN + length].copy_from_slice(&made[MARGIN..MARGIN + length]);
    let is_same = memory == made;
    let name = || name(": all but the feed stays");
    same(name, &true, &is_same, bool::to_string)?;
    Ok(feed)
}

/// Runs a list of calls on a feed begun new. Each answer, each output and the totals after each call must be those of
/// the reading, and the joined outputs and the totals at the end those of the crate.
pub fn check(calls: &dyn Calls, policy: &Policy, list: &[Step]) -> Result<(), Difference> {
    let bytes = feed_bytes(calls)?;
    let Ok(reading) = Feed::begin(&policy.bytes) else {
        return check_begin(calls, policy);
    };
    let begun = Answer::new(Answer::DONE, bytes as u64);
    let mut run = Thread {
        calls,
        policy,
        feed: begin_in(calls, policy, begun, bytes)?,
        totals: reading.totals(),
        reading,
        joined: Vec::new(),
    };
    run.totals(0, &[TOTALS_BYTES])?;
    for (number, step) in (1..).zip(list) {
        run.step(number, step)?;
    }
    Ok(())
}

/// A feed, the reading of it with its totals, and what it has written.
struct Thread<'a> {
    calls: &'a dyn Calls,
    policy: &'a Policy,
    feed: Vec<u8>,
    reading: Feed,
    totals: Counts,
    joined: Vec<u8>,
}

impl Thread<'_> {
    /// Makes one call, and reads the totals after it.
    fn step(&mut self, number: usize, step: &Step) -> Result<(), Difference> {
        let (taken, room) = match step {
            Step::Piece { bytes, room } => (self.reading.piece(bytes), *room),
            Step::End { room } => (self.reading.end(), *room),
            Step::Policy { bytes } => (self.reading.change(bytes).map(feed::changed), 0),
        };
        let draft = feed::draft(&taken);
        let name = || format!("call {number} of the list");
        self.feed = lend_feed(
            MARGINS,
            name,
            &self.feed,
            &draft,
            room,
            |feed, out| match step {
                Step::Piece { bytes, .. } => self.calls.feed_piece(feed, bytes, out),
                Step::End { .. } => self.calls.feed_end(feed, out),
                Step::Policy { bytes } => self.calls.feed_policy(feed, bytes),
            },
        )?;
        let (answer, written) = draft.with_room(room);
        if let (Ok(taken), Answer::DONE) = (taken, answer.number) {
            self.joined.extend(written);
            self.reading = taken.feed;
            self.totals = self.reading.totals();
            self.beside_the_crate(number)?;
        }
        match step {
            Step::Piece { .. } | Step::Policy { .. } => self.totals(number, &[TOTALS_BYTES]),
            Step::End { .. } => self.totals(number, &[0, TOTALS_BYTES - 1, TOTALS_BYTES, 77]),
        }
    }

    /// Compares the totals, read into outputs of these lengths.
    fn totals(&self, number: usize, rooms: &[usize]) -> Result<(), Difference> {
        let draft = Draft::bytes(totals_bytes(&self.totals));
        let name = || format!("totals after call {number}");
        rooms.iter().try_for_each(|&room| {
            lend(name, &draft, room, |out| {
                self.calls.feed_totals(&self.feed, out)
            })
        })
    }

    /// Holds the joined outputs and the totals to what the crate makes of the thread.
    fn beside_the_crate(&self, number: usize) -> Result<(), Difference> {
        let whole = self.reading.whole();
        let has_ended = self.reading.has_ended();
        let (Ok(text), Some(policy)) = (str::from_utf8(whole), &self.policy.beside) else {
            return Ok(());
        };
        // The crate formats under one policy.
        if self.reading.has_changed() || !has_ended && text.len() > SHORT_THREAD {
            return Ok(());
        }
        let totals = crate_totals(text, policy);
        let name = |what: &str| format!("the crate's {what} (expected) after call {number}");
        let show = |totals: &Counts| format!("{totals:?}");
        same(|| name("totals"), &totals, &self.totals, show)?;
        let formatted = beside::formatted(text, policy).unwrap_or_else(|| whole.to_vec());
        let show = |bytes: &Vec<u8>| hexadecimal(bytes);
        let name = || name("formatted text");
        if has_ended {
            return same(name, &formatted, &self.joined, show);
        }
        let is_beginning = formatted.starts_with(&self.joined);
        same(name, &true, &is_beginning, bool::to_string)
    }
}

/// The sums of the crate's counts.
fn crate_totals(text: &str, policy: &evfmt::Policy) -> Counts {
    let mut totals = Counts::default();
    for row in beside::findings(text, policy).chunks(beside::FINDING_BYTES) {
        for (total, bytes) in totals.iter_mut().zip(row[16..].chunks(8)) {
            let number = bytes.iter().rev();
            *total += number.fold(0, |number, &byte| number << 8 | u64::from(byte));
        }
    }
    totals
}
