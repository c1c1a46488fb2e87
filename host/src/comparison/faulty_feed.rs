//! The faults that are planted into calls on feeds.

use std::cell::RefCell;

use super::faults::Fault;
use super::faulty::flip;
use crate::calls::{Answer, Calls};
use crate::reference::calls::LONGEST_TEXT;
use crate::reference::feed::{TOTALS_BYTES, held, room, totals, totals_bytes};
use crate::reference::policy::{Policy, default_policy};
use crate::reference::utf8;

/// What a fault needs to know of the feed that was begun last.
#[derive(Debug, Default)]
pub struct Fed {
    policy: Vec<u8>,
    thread: Vec<u8>,
    has_ended: bool,
    /// The refusal of an ill-formed piece.
    ill_formed: Option<Answer>,
}

/// Calls on feeds with a planted fault.
pub struct FaultyFeed<'a> {
    calls: &'a dyn Calls,
    fault: Fault,
    fed: RefCell<Fed>,
}

impl<'a> FaultyFeed<'a> {
    /// Plants a fault.
    #[must_use]
    pub fn new(calls: &'a dyn Calls, fault: Fault) -> Self {
        Self {
            calls,
            fault,
            fed: RefCell::default(),
        }
    }

    /// Begins a feed.
    pub fn begin(&self, policy: &[u8], feed: &mut [u8]) -> Answer {
        let answer = Answer::of_word(self.calls.feed_begin(policy, feed));
        if answer.number == Answer::DONE {
            *self.fed.borrow_mut() = Fed {
                policy: policy.to_vec(),
                ..Fed::default()
            };
        }
        answer
    }

    /// A piece.
    pub fn piece(&self, feed: &mut [u8], piece: &[u8], out: &mut [u8]) -> Answer {
        let fed = &mut *self.fed.borrow_mut();
        if let (Fault::RefusalSticks, Some(refusal)) = (self.fault, fed.ill_formed) {
            return refusal;
        }
        let call = |feed: &mut [u8], out: &mut [u8]| self.calls.feed_piece(feed, piece, out);
        let mut answer = self.room_by_need(room(piece.len()), feed, out, call);
        let done = Answer::new(Answer::DONE, 0);
        match (self.fault, answer.number) {
            (Fault::PiecesAlone, Answer::DONE) => {
                answer = self.piece_alone(&fed.policy, piece, out, answer);
            }
            (Fault::OffsetInPiece, 3) => {
                answer.value = answer.value.saturating_sub(fed.thread.len() as u64);
            }
            (Fault::RoomBeforeForm, 3) if out.len() < room(piece.len()) => {
                answer = Answer::new(8, room(piece.len()) as u64);
            }
            (Fault::LimitWithoutUnfinished, 1) => {
                let whole = utf8::well_formed_beginning(&fed.thread);
                if whole + piece.len() <= LONGEST_TEXT {
                    answer = done;
                }
            }
            (Fault::TakesAfterEnd, 9) => answer = done,
            _ => {}
        }
        match answer.number {
            Answer::DONE => fed.thread.extend(piece),
            3 => fed.ill_formed = Some(answer),
            _ => {}
        }
        self.spoil_refused(answer, feed, out);
        answer
    }

    /// The end.
    pub fn end(&self, feed: &mut [u8], out: &mut [u8]) -> Answer {
        let call = |feed: &mut [u8], out: &mut [u8]| self.calls.feed_end(feed, out);
        let mut answer = self.room_by_need(room(0), feed, out, call);
        if self.fault == Fault::EndsInsideCharacter && answer.number == 10 {
            answer = Answer::new(Answer::DONE, 0);
        }
        self.fed.borrow_mut().has_ended |= answer.number == Answer::DONE;
        self.spoil_refused(answer, feed, out);
        answer
    }

    /// A change of the policy.
    pub fn change(&self, feed: &mut [u8], policy: &[u8]) -> Answer {
        let mut answer = Answer::of_word(self.calls.feed_policy(feed, policy));
        let fed = &mut *self.fed.borrow_mut();
        match (self.fault, answer.number) {
            (Fault::JudgesHeldAnew, Answer::DONE) => {
                // The whole thread goes into a new feed, so that its last base is judged by the new policy.
                let mut out = vec![0; room(fed.thread.len())];
                let _ = self.calls.feed_begin(policy, feed);
                let _ = self.calls.feed_piece(feed, &fed.thread, &mut out);
            }
            (Fault::ChangesAfterEnd, 9) => answer = Answer::new(Answer::DONE, 0),
            (Fault::ChangeVersionLate, 15) if has_unused_bit(policy) => {
                answer = Answer::new(2, 0);
            }
            _ => {}
        }
        if answer.number == Answer::DONE {
            fed.policy = policy.to_vec();
        }
        self.spoil_refused(answer, feed, &mut []);
        answer
    }

    /// The totals.
    pub fn totals(&self, feed: &[u8], out: &mut [u8]) -> Answer {
        let answer = Answer::of_word(self.calls.feed_totals(feed, out));
        let fed = self.fed.borrow();
        if answer.number == Answer::DONE {
            let front = &mut out[..TOTALS_BYTES];
            match self.fault {
                Fault::TotalsWithoutHeld => {
                    let whole = &fed.thread[..utf8::well_formed_beginning(&fed.thread)];
                    let totals = totals(&whole[..held(whole)], &fed.policy);
                    front.copy_from_slice(&totals_bytes(&totals));
                }
                Fault::NoTotalsAfterEnd if fed.has_ended => front.fill(0),
                _ => {}
            }
        }
        answer
    }

    /// Makes a call. If the fault is that need counts and not the figure, a call that has too little room is made once
    /// more with that room, and taken if the result fits.
    fn room_by_need(
        &self,
        wanted: usize,
        feed: &mut [u8],
        out: &mut [u8],
        call: impl Fn(&mut [u8], &mut [u8]) -> u64,
    ) -> Answer {
        let answer = Answer::of_word(call(feed, out));
        if self.fault != Fault::RoomByNeed || answer.number != 8 {
            return answer;
        }
        let (before, mut larger) = (feed.to_vec(), vec![0; wanted]);
        let taken = Answer::of_word(call(feed, &mut larger));
        let length = taken.value as usize;
        if taken.number == Answer::DONE && length <= out.len() {
            out[..length].copy_from_slice(&larger[..length]);
            return taken;
        }
        feed.copy_from_slice(&before);
        answer
    }

    /// Formats a piece as a text of its own, if it is one.
    fn piece_alone(&self, policy: &[u8], piece: &[u8], out: &mut [u8], answer: Answer) -> Answer {
        let alone = Answer::of_word(self.calls.format(piece, policy, out));
        match alone.number {
            Answer::DONE => alone,
            255 => {
                out[..piece.len()].copy_from_slice(piece);
                Answer::new(Answer::DONE, piece.len() as u64)
            }
            _ => answer,
        }
    }

    /// Changes the feed or the output of a refused call, if that is the fault.
    fn spoil_refused(&self, answer: Answer, feed: &mut [u8], out: &mut [u8]) {
        match self.fault {
            _ if !answer.is_refusal() => {}
            Fault::RefusedFeedChanges => flip(feed, 0),
            Fault::RefusedPieceWrites => flip(out, 0),
            _ => {}
        }
    }
}

/// Whether an unused bit is set in bytes that are a policy but for it and for their version.
fn has_unused_bit(policy: &[u8]) -> bool {
    let (version, _) = default_policy().split_at(8);
    policy.len() == default_policy().len()
        && Policy::read(&[version, &policy[8..]].concat()).is_err()
}
