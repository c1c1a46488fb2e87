//! The cases of feeds in a run.

use super::{Run, Stop};
use crate::Random;
use crate::comparison::lent::Difference;
use crate::comparison::policies::{self, Policy};
use crate::comparison::reduce::reduced;
use crate::comparison::report::feed_report;
use crate::comparison::texts::every_text;
use crate::comparison::{feed_case, feed_lists, feed_states, repair_case};

impl Run<'_> {
    /// Compares a list of calls on a feed; a difference is reduced first.
    fn feed(&self, kind: &str, policy: &Policy, list: &[feed_case::Step]) -> Result<(), Stop> {
        let check = |list: &[_]| feed_case::check(self.calls, policy, list).err();
        let Some(difference) = check(list) else {
            return Ok(());
        };
        let fewer = reduced(list, |list| check(list).is_some());
        Err(Stop::Difference(match check(&fewer) {
            Some(difference) => feed_report(kind, policy, &fewer, &difference),
            None => feed_report(kind, policy, list, &difference),
        }))
    }

    /// Short threads cut in every way, damaged ones byte by byte, and bytes that are no feed.
    pub(super) fn every_feed(&mut self) -> Result<(), Stop> {
        let (most, mut lists) = (self.options.length.min(2), 0);
        for length in 0..=most {
            every_text(&self.alphabet.one_of_each(), length, |thread| {
                let mut ways = 0..1 << thread.len().saturating_sub(1);
                ways.try_for_each(|bits| {
                    let policy = &self.policies[bits % self.policies.len()];
                    lists += 2;
                    let thread = thread.as_bytes();
                    self.feed("feeds", policy, &feed_lists::cut(thread, bits))?;
                    let list = feed_lists::cut_with_changes(thread, bits, &self.policies);
                    self.feed("feeds", policy, &list)
                })
            })?;
        }
        let what = format!(
            "threads of up to {most} characters, cut in every way, without and with changes of the policy"
        );
        self.told("feeds", lists, &what)?;
        let all = (0..=3).map(|length| (&repair_case::EDGES[..], length));
        let damaged = all.chain([(&repair_case::FEWER_EDGES[..], 4)]);
        let (most, mut lists) = (self.options.length.clamp(2, 4), 0);
        for (bytes, length) in damaged.filter(|(_, length)| *length <= most) {
            repair_case::every_text(bytes, length, |thread| {
                lists += 1;
                let list = feed_lists::byte_by_byte(thread);
                self.feed("feeds", &self.policies[0], &list)
            })?;
        }
        let what = format!("damaged threads of up to {most} bytes, byte by byte");
        self.told("feeds", lists, &what)?;
        let made = feed_states::check_lengths(self.calls).map_err(feeds_differ)?;
        self.told(
            "feeds",
            made,
            "calls on bytes of other lengths than a feed's",
        )
    }

    /// A thread that comes in pieces, and bytes that are no feed; and how many calls they are.
    pub(super) fn drawn_feed(&self, random: &mut Random) -> Result<u64, Stop> {
        let refused = policies::refused(random);
        feed_case::check_begin(self.calls, &refused).map_err(feeds_differ)?;
        let policy = self.drawn_policy(random);
        feed_case::check_begin(self.calls, &policy).map_err(feeds_differ)?;
        let list = feed_lists::drawn(random, &self.alphabet);
        self.feed("feeds", &policy, &list)?;
        let made = feed_states::check_drawn(self.calls, random).map_err(feeds_differ)?;
        Ok(list.len() as u64 + made)
    }

    /// Threads that reach the limit, and how many they are.
    pub(super) fn feeds_around_limit(&self) -> Result<u64, Stop> {
        let lists = feed_lists::around_limit();
        for list in &lists {
            self.feed("limits", &self.policies[0], list)?;
        }
        Ok(lists.len() as u64)
    }
}

/// A difference in a call on a feed that has no list.
fn feeds_differ(difference: Difference) -> Stop {
    Stop::Difference(format!("difference in feeds\n{difference}"))
}
