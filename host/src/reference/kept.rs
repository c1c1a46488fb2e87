//! Feeds in lent bytes, as the calls have them. The bytes are a mark and a number, and the feed of that number is kept
//! here. A feed that changes gets another number, so that bytes that were copied stand for the feed as it was then.

use std::cell::RefCell;
use std::collections::VecDeque;

use super::feed::{self, Feed, TOTALS_BYTES, Taken, totals_bytes};
use crate::calls::Answer;

/// The bytes of a feed.
pub const FEED_BYTES: usize = 16;

/// What the bytes of a feed begin with; after it comes the number.
const MARK: [u8; 8] = *b"the feed";

/// How many feeds are kept: those of the last changes, and fewer where their threads are long.
const MOST: usize = 1 << 13;
/// The most bytes of all threads that are kept.
const MOST_BYTES: usize = 1 << 28;

/// A feed that is equal to one of the last feeds of this number gets no number of its own.
const LAST: usize = 4;

/// The feeds that are kept, and the number of the first of them.
#[derive(Default)]
struct Kept {
    first: u64,
    feeds: VecDeque<Feed>,
    bytes: usize,
}

thread_local! {
    static KEPT: RefCell<Kept> = RefCell::default();
}

/// Begins a feed: the tests of the policy, then 8 with the bytes of a feed.
pub fn begin(policy: &[u8], bytes: &mut [u8]) -> Answer {
    let feed = match Feed::begin(policy) {
        Ok(feed) => feed,
        Err(refusal) => return refusal,
    };
    let value = FEED_BYTES as u64;
    match bytes.get_mut(..FEED_BYTES) {
        None => Answer::new(8, value),
        Some(front) => {
            keep(feed, front);
            Answer::new(Answer::DONE, value)
        }
    }
}

/// A piece.
pub fn piece(bytes: &mut [u8], piece: &[u8], out: &mut [u8]) -> Answer {
    change(bytes, out, |feed| feed.piece(piece))
}

/// The end.
pub fn end(bytes: &mut [u8], out: &mut [u8]) -> Answer {
    change(bytes, out, Feed::end)
}

/// A change of the policy. Bytes that are no feed are answered as a feed that has ended.
pub fn change_policy(bytes: &mut [u8], policy: &[u8]) -> Answer {
    let changed = find(bytes).map_or(Err(Answer::new(9, 0)), |feed| feed.change(policy));
    match changed {
        Err(refusal) => refusal,
        Ok(feed) => {
            keep(feed, bytes);
            Answer::new(Answer::DONE, 0)
        }
    }
}

/// The totals. Those of bytes that are no feed are zeros.
pub fn totals(bytes: &[u8], out: &mut [u8]) -> Answer {
    let totals = find(bytes).map_or([0; 8], |feed| feed.totals());
    let value = TOTALS_BYTES as u64;
    match out.get_mut(..TOTALS_BYTES) {
        None => Answer::new(8, value),
        Some(front) => {
            front.copy_from_slice(&totals_bytes(&totals));
            Answer::new(Answer::DONE, value)
        }
    }
}

/// A call that changes a feed. Bytes that are no feed are answered as a feed that has ended.
fn change(
    bytes: &mut [u8],
    out: &mut [u8],
    call: impl Fn(&Feed) -> Result<Taken, Answer>,
) -> Answer {
    let taken = find(bytes).map_or(Err(Answer::new(9, 0)), |feed| call(&feed));
    let draft = feed::draft(&taken);
    let (answer, written) = draft.with_room(out.len());
    if let (Ok(taken), Answer::DONE) = (taken, answer.number) {
        out[..written.len()].copy_from_slice(written);
        keep(taken.feed, bytes);
    }
    answer
}

/// The feed of its bytes.
fn find(bytes: &[u8]) -> Option<Feed> {
    let number = bytes.strip_prefix(&MARK)?.try_into().ok()?;
    KEPT.with_borrow(|kept| {
        let place = u64::from_le_bytes(number).checked_sub(kept.first)?;
        kept.feeds.get(usize::try_from(place).ok()?).cloned()
    })
}

/// Keeps a feed, and writes its bytes.
fn keep(feed: Feed, bytes: &mut [u8]) {
    let number = KEPT.with_borrow_mut(|kept| {
        let mut last = kept.feeds.iter().enumerate().rev().take(LAST);
        if let Some((place, _)) = last.find(|(_, kept)| **kept == feed) {
            return kept.first + place as u64;
        }
        kept.bytes += feed.length();
        kept.feeds.push_back(feed);
        while kept.feeds.len() > MOST || kept.bytes > MOST_BYTES {
            kept.bytes -= kept.feeds.pop_front().map_or(0, |feed| feed.length());
            kept.first += 1;
        }
        kept.first + kept.feeds.len() as u64 - 1
    });
    bytes[..8].copy_from_slice(&MARK);
    bytes[8..].copy_from_slice(&number.to_le_bytes());
}
