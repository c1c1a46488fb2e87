//! The cuts of texts in a run.

use super::{Run, Stop};
use crate::Random;
use crate::comparison::policies::Policy;
use crate::comparison::reduce::reduced_text;
use crate::comparison::report::report;
use crate::comparison::texts::every_text;
use crate::comparison::{cut_case, repair_case};

/// The length in characters up to which every text is cut at every offset.
const LONGEST: usize = 3;

impl Run<'_> {
    /// Compares the cuts of a text; a text that shows a difference is reduced to a short one.
    fn cuts(&self, text: &[u8], policy: &Policy, offsets: &[u64]) -> Result<(), Stop> {
        let check = |text: &[u8]| cut_case::check(self.calls, text, policy, offsets).err();
        let Some(difference) = check(text) else {
            return Ok(());
        };
        let small = reduced_text(text, |text| check(text).is_some());
        let difference = check(&small).unwrap_or(difference);
        let report = report("cuts", (&small, text.len()), policy, &[], &difference);
        Err(Stop::Difference(report))
    }

    /// Every offset of every short text, and of damaged ones.
    pub(super) fn every_cut(&mut self) -> Result<(), Stop> {
        let (most, mut texts, mut offsets) = (self.options.length.min(LONGEST), 0, 0);
        let mut check = |text: &[u8]| {
            let all = cut_case::every_offset(text.len());
            let policy = &self.policies[texts % self.policies.len()];
            texts += 1;
            offsets += all.len() as u64;
            self.cuts(text, policy, &all)
        };
        for length in 0..=most {
            every_text(&self.alphabet.one_of_each(), length, |text| {
                check(text.as_bytes())
            })?;
        }
        repair_case::every_text(&repair_case::FEWER_EDGES, 3, &mut check)?;
        let what = format!("offsets of texts of up to {most} characters and of damaged texts");
        self.told("cuts", offsets, &what)
    }

    /// Drawn offsets of a drawn text, which may be damaged, under a drawn policy; and how many they are.
    pub(super) fn drawn_cuts(&self, random: &mut Random) -> Result<u64, Stop> {
        let text = match random.below(8) {
            0 => self.alphabet.damaged(random),
            _ => self.alphabet.drawn(random),
        };
        let policy = self.drawn_policy(random);
        let offsets = cut_case::drawn(random, &text);
        self.cuts(&text, &policy, &offsets)?;
        Ok(offsets.len() as u64)
    }
}
