//! The cases around a stretch and for the nearest finding in a run.

use super::{Run, Stop};
use crate::Random;
use crate::comparison::near_case::{self, Mark};
use crate::comparison::policies::Policy;
use crate::comparison::reduce::reduced_text;
use crate::comparison::report::report;
use crate::comparison::texts::every_text;

impl Run<'_> {
    /// Compares both calls on a text; a text that shows a difference is reduced to a short one.
    pub(super) fn near(&self, text: &[u8], policy: &Policy, marks: &[Mark]) -> Result<(), Stop> {
        let check = |text: &[u8]| near_case::check(self.calls, text, policy, marks).err();
        let Some(difference) = check(text) else {
            return Ok(());
        };
        let small = reduced_text(text, |text| check(text).is_some());
        let difference = check(&small).unwrap_or(difference);
        let length = text.len();
        let report = report("near", (&small, length), policy, &[], &difference);
        Err(Stop::Difference(report))
    }

    /// Every stretch and every offset of short texts.
    pub(super) fn every_near(&mut self) -> Result<(), Stop> {
        let (most, mut stretches) = (self.options.length.min(2), 0);
        for length in 0..=most {
            let mut texts = 0;
            every_text(&self.alphabet.one_of_each(), length, |text| {
                let marks = near_case::every_mark(text.len());
                let policy = &self.policies[texts % self.policies.len()];
                texts += 1;
                stretches += marks.len() as u64;
                self.near(text.as_bytes(), policy, &marks)
            })?;
        }
        let what = format!("stretches of texts of up to {most} characters");
        self.told("near", stretches, &what)
    }

    /// Drawn stretches of a drawn text, which may be damaged, under a drawn policy; and how many they are.
    pub(super) fn drawn_near(&self, random: &mut Random) -> Result<u64, Stop> {
        let text = match random.below(8) {
            0 => self.alphabet.damaged(random),
            _ => self.alphabet.drawn(random),
        };
        let policy = match random.below(8) {
            0 => crate::comparison::policies::refused(random),
            _ => self.drawn_policy(random),
        };
        let marks = near_case::drawn(random, &text, &policy);
        self.near(&text, &policy, &marks)?;
        Ok(marks.len() as u64)
    }
}
