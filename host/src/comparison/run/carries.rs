//! The cases of policies that are carried over in a run.

use super::{Run, Stop};
use crate::Random;
use crate::comparison::carry_case::{self, Old};
use crate::comparison::lent::hexadecimal;

impl Run<'_> {
    /// Compares carrying a policy over.
    fn carry(&self, old: &Old) -> Result<(), Stop> {
        carry_case::check(self.calls, old).map_err(|difference| {
            let (list, policy) = (hexadecimal(&old.bytes()), hexadecimal(&old.policy));
            let what = format!("  list      {list}\n  policy    {policy}\n{difference}");
            Stop::Difference(format!("difference in carries\n{what}"))
        })
    }

    /// Lists made from ours with entries left out and added, and the same with a fault.
    pub(super) fn every_carry(&mut self) -> Result<(), Stop> {
        let worked = carry_case::worked();
        for old in &worked {
            self.carry(old)?;
        }
        let what = "old lists with a policy, made from ours";
        self.told("carries", worked.len() as u64, what)
    }

    /// A drawn list with a drawn policy.
    pub(super) fn drawn_carry(&self, random: &mut Random) -> Result<(), Stop> {
        self.carry(&carry_case::drawn(random))
    }
}
