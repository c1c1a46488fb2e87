//! Document 02, (iii): "A feed takes the next bytes and writes all but an unfinished character and a last base that has a
//! variation entry, with its selectors."
//!
//! (xii): "An open feed may change policy between two pieces. A base is judged by the policy in force when its last byte
//! was fed. In (iii) joined outputs and totals now equal those of a formatting that picks each base's policy so."
//!
//! This feed keeps the whole thread and every policy, and formats the thread anew in each call. So it says what is
//! written, and not how a feed can know it from what it remembers.

use super::calls::{Draft, LONGEST_TEXT};
use super::characters::{properties, selector};
use super::items::items;
use super::policy::Policy;
use super::repair::is_unfinished;
use super::rules::{Counts, finding, finding_by};
use super::utf8;
use crate::calls::Answer;

/// A feed: its policies, the thread so far, how much of the formatted thread is written, and whether it has ended.
#[derive(Debug, Clone, PartialEq, Eq)]
pub struct Feed {
    policies: Policies,
    thread: Vec<u8>,
    written: usize,
    has_ended: bool,
}

/// The policies of a feed, each with the offset in the thread from which it is in force. The first is that which the feed
/// began with.
#[derive(Debug, Clone, PartialEq, Eq)]
struct Policies(Vec<(usize, Policy)>);

impl Policies {
    /// The policy that was in force when this byte was fed.
    fn at(&self, byte: usize) -> &Policy {
        let Self(policies) = self;
        let from = policies.partition_point(|(from, _)| *from <= byte);
        &policies[from.max(1) - 1].1
    }

    /// The formatted text of a well-formed one.
    fn formatted(&self, text: &[u8]) -> Vec<u8> {
        let mut out = Vec::with_capacity(text.len());
        for item in items(text) {
            match finding_by(&item, |byte| self.at(byte)) {
                None => out.extend(&text[item.start..item.end]),
                Some(analysis) => out.extend(analysis.default_replacement()),
            }
        }
        out
    }

    /// The totals of a well-formed text.
    fn totals(&self, text: &[u8]) -> Counts {
        let mut totals = Counts::default();
        for analysis in items(text).filter_map(|item| finding_by(&item, |byte| self.at(byte))) {
            for (total, count) in totals.iter_mut().zip(analysis.counts) {
                *total += count;
            }
        }
        totals
    }
}

/// What a call does that no test before that of the room refuses: what it writes, and the feed after it.
#[derive(Debug, Clone, PartialEq, Eq)]
pub struct Taken {
    /// What it writes, and the room that it wants.
    pub draft: Draft,
    /// The feed after it.
    pub feed: Feed,
}

/// The bytes of the eight totals.
pub const TOTALS_BYTES: usize = 64;

/// "A piece of n bytes .. is taken if the output holds 4n + 16 bytes"; "the end counts as a piece of 0 bytes".
#[must_use]
pub const fn room(piece: usize) -> usize {
    4 * piece + 16
}

impl Feed {
    /// A feed begun new, or the refusal of bytes that are no policy.
    pub fn begin(policy: &[u8]) -> Result<Self, Answer> {
        let policy = Policy::read(policy)?;
        Ok(Self {
            policies: Policies(vec![(0, policy)]),
            thread: Vec::new(),
            written: 0,
            has_ended: false,
        })
    }

    /// The feed after a change of its policy, or the refusal: 9, or that of bytes that are no policy.
    pub fn change(&self, policy: &[u8]) -> Result<Self, Answer> {
        if self.has_ended {
            return Err(Answer::new(9, 0));
        }
        let policy = Policy::read(policy)?;
        let mut feed = self.clone();
        feed.policies.0.push((self.thread.len(), policy));
        Ok(feed)
    }

    /// A piece, or its refusal: 9, 1 or 3.
    pub fn piece(&self, piece: &[u8]) -> Result<Taken, Answer> {
        if self.has_ended {
            return Err(Answer::new(9, 0));
        }
        if self.thread.len() + piece.len() > LONGEST_TEXT {
            return Err(Answer::new(1, 0));
        }
        let thread = [&self.thread, piece].concat();
        let (whole, rest) = whole_characters(&thread);
        if !rest.is_empty() && !is_unfinished(rest) {
            return Err(Answer::new(3, whole.len() as u64));
        }
        let decided = self.policies.formatted(&whole[..held(whole)]);
        Ok(self.taken(thread, &decided, room(piece.len()), false))
    }

    /// The end, or its refusal: 9 or 10.
    pub fn end(&self) -> Result<Taken, Answer> {
        if self.has_ended {
            return Err(Answer::new(9, 0));
        }
        let (whole, rest) = whole_characters(&self.thread);
        if !rest.is_empty() {
            return Err(Answer::new(10, 0));
        }
        let all = self.policies.formatted(whole);
        Ok(self.taken(self.thread.clone(), &all, room(0), true))
    }

    /// What is taken when the thread is this one and this much of it is formatted.
    fn taken(&self, thread: Vec<u8>, formatted: &[u8], wanted: usize, has_ended: bool) -> Taken {
        let bytes = formatted[self.written..].to_vec();
        let feed = Self {
            policies: self.policies.clone(),
            thread,
            written: formatted.len(),
            has_ended,
        };
        let draft = Draft::WritesWithin { bytes, wanted };
        Taken { draft, feed }
    }

    /// "Its eight totals can be read at any time: they are those of the whole characters fed so far, as if the thread
    /// ended there."
    #[must_use]
    pub fn totals(&self) -> Counts {
        self.policies.totals(self.whole())
    }

    /// The whole characters fed so far.
    #[must_use]
    pub fn whole(&self) -> &[u8] {
        whole_characters(&self.thread).0
    }

    /// The bytes of the unfinished character.
    #[must_use]
    pub fn unfinished(&self) -> &[u8] {
        whole_characters(&self.thread).1
    }

    /// The bytes of the thread so far.
    #[must_use]
    pub const fn length(&self) -> usize {
        self.thread.len()
    }

    /// Whether its policy was changed.
    #[must_use]
    pub const fn has_changed(&self) -> bool {
        self.policies.0.len() > 1
    }

    /// Whether it has ended.
    #[must_use]
    pub const fn has_ended(&self) -> bool {
        self.has_ended
    }
}

/// A change of the policy as a call that writes nothing.
#[must_use]
pub const fn changed(feed: Feed) -> Taken {
    let draft = Draft::WritesWithin {
        bytes: Vec::new(),
        wanted: 0,
    };
    Taken { draft, feed }
}

/// What a call on a feed does but for the test of the room.
#[must_use]
pub fn draft(taken: &Result<Taken, Answer>) -> Draft {
    match taken {
        Ok(taken) => taken.draft.clone(),
        Err(refusal) => Draft::Refused(*refusal),
    }
}

/// The bytes of totals: eight numbers.
#[must_use]
pub fn totals_bytes(totals: &Counts) -> Vec<u8> {
    totals
        .iter()
        .flat_map(|total| total.to_le_bytes())
        .collect()
}

/// The totals of a well-formed text under a policy. Under bytes that are none there is no finding.
#[must_use]
pub fn totals(text: &[u8], policy: &[u8]) -> Counts {
    let mut totals = Counts::default();
    let Ok(policy) = Policy::read(policy) else {
        return totals;
    };
    for analysis in items(text).filter_map(|item| finding(&item, &policy)) {
        for (total, count) in totals.iter_mut().zip(analysis.counts) {
            *total += count;
        }
    }
    totals
}

/// The longest well-formed beginning, and the bytes after it.
fn whole_characters(thread: &[u8]) -> (&[u8], &[u8]) {
    thread.split_at(utf8::well_formed_beginning(thread))
}

/// Where "a last base that has a variation entry, with its selectors" begins, or the length where the text ends in none.
#[must_use]
pub fn held(text: &[u8]) -> usize {
    let mut last = None;
    let mut at = 0;
    while let Some((character, length)) = utf8::first(&text[at..]) {
        if selector(character).is_none() {
            last = Some((at, character));
        }
        at += length;
    }
    match last {
        Some((at, base)) if properties(base).entry.is_some() => at,
        _ => text.len(),
    }
}
