//! The cases of stores in a run.

use super::{Run, Stop};
use crate::Random;
use crate::comparison::lent::Difference;
use crate::comparison::policies::Policy;
use crate::comparison::reduce::reduced;
use crate::comparison::report::store_report;
use crate::comparison::store_case::{self, Begin, Step};
use crate::comparison::store_lists;

impl Run<'_> {
    /// Compares a list of calls on a store; a difference is reduced first.
    fn store(&self, policy: &Policy, begin: &Begin, list: &[Step]) -> Result<(), Stop> {
        let check = |list: &[_]| store_case::check(self.calls, policy, begin, list).err();
        let Some(difference) = check(list) else {
            return Ok(());
        };
        let fewer = reduced(list, |list| check(list).is_some());
        Err(Stop::Difference(match check(&fewer) {
            Some(difference) => store_report(policy, begin, &fewer, &difference),
            None => store_report(policy, begin, list, &difference),
        }))
    }

    /// Stores that are exactly full, reserves around the capacity, and bytes that are no store.
    pub(super) fn every_store(&mut self) -> Result<(), Stop> {
        let begins = store_lists::begins();
        for begin in &begins {
            store_case::check_begin(self.calls, begin).map_err(stores_differ)?;
        }
        let lists = store_lists::full();
        for (begin, list) in &lists {
            self.store(&self.policies[0], begin, list)?;
        }
        let cases = (begins.len() + lists.len()) as u64;
        self.told(
            "stores",
            cases,
            "reserves around a capacity, and full stores",
        )?;
        let made = store_case::check_lengths(self.calls).map_err(stores_differ)?;
        let what = "calls on bytes of other lengths than a store's";
        self.told("stores", made, what)
    }

    /// A drawn list of calls on a drawn store, and bytes that are no store; and how many calls they are.
    pub(super) fn drawn_store(&self, random: &mut Random) -> Result<u64, Stop> {
        let policy = self.drawn_policy(random);
        let begin = store_lists::drawn_begin(random);
        let list = store_lists::drawn(random, &self.alphabet);
        self.store(&policy, &begin, &list)?;
        let mut state = vec![0; store_case::store_bytes(self.calls).map_err(stores_differ)?];
        if random.coin() {
            state.fill_with(|| random.bits() as u8);
        } else {
            // The words that come first have any value.
            let front = state.len().min(300);
            state[..front].fill_with(|| random.bits() as u8);
        }
        let made = store_case::check_any(self.calls, &state).map_err(stores_differ)?;
        Ok(list.len() as u64 + made)
    }
}

/// A difference in a call on a store that has no list.
fn stores_differ(difference: Difference) -> Stop {
    Stop::Difference(format!("difference in stores\n{difference}"))
}
