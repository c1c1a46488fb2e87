//! The cases of sheets in a run.

use super::{Run, Stop};
use crate::Random;
use crate::calls::Calls;
use crate::comparison::lent::{Difference, hexadecimal};
use crate::comparison::reduce::reduced_text;
use crate::comparison::report::text_report;
use crate::comparison::{policies, sheet_case, sheets};
use crate::reference::calls::LONGEST_TEXT;

/// The number of drawn sheets that come before the texts.
const FIRST_DRAWN: u64 = 300;

/// A comparison of reading a sheet.
type Check = fn(&dyn Calls, &[u8]) -> Result<(), Difference>;

impl Run<'_> {
    /// Compares reading a sheet; one that shows a difference is reduced first.
    fn sheet(&self, kind: &str, sheet: &[u8], check: Check) -> Result<(), Stop> {
        let check = |sheet: &[u8]| check(self.calls, sheet).err();
        let Some(difference) = check(sheet) else {
            return Ok(());
        };
        let small = reduced_text(sheet, |sheet| check(sheet).is_some());
        let difference = check(&small).unwrap_or(difference);
        let head = text_report(kind, (&small, sheet.len()));
        Err(Stop::Difference(format!("{head}{difference}")))
    }

    /// Compares writing the sheet of a policy.
    fn written_sheet(&self, policy: &[u8]) -> Result<(), Stop> {
        sheet_case::check_write(self.calls, policy).map_err(|difference| {
            let policy = hexadecimal(policy);
            Stop::Difference(format!(
                "difference in sheets\n  policy    {policy}\n{difference}"
            ))
        })
    }

    /// Every short sheet, worked ones, the sheets of policies, sheets that are too long, and drawn ones.
    pub(super) fn sheets(&mut self) -> Result<(), Stop> {
        let most = self.options.sheets;
        let few = most.min(sheets::MOST_FEW_BYTES);
        self.every_sheet(&sheets::TOKENS, most, "tokens")?;
        self.every_sheet(&sheets::FEW_BYTES, few, "bytes out of 9")?;
        let fewer = most.saturating_sub(2);
        self.every_sheet(&sheets::ALL_BYTES, fewer, "bytes out of 21")?;
        for sheet in sheets::WORKED {
            self.sheet("sheets", sheet, sheet_case::check_read)?;
        }
        self.told("sheets", sheets::WORKED.len() as u64, "worked sheets")?;
        let mut random = Random::from_seed(self.options.seed);
        let policies = sheets::policies(&mut random);
        for policy in &policies {
            self.written_sheet(policy)?;
        }
        self.told("sheets", policies.len() as u64, "policies")?;
        let long = sheets::too_long();
        for sheet in &long {
            self.sheet("sheets", sheet, sheet_case::check_once)?;
        }
        self.told("sheets", long.len() as u64, "sheets that are too long")?;
        let mut drawn = 0;
        while drawn < self.options.cases.min(FIRST_DRAWN) && !self.is_over() {
            self.drawn_sheets(&mut random)?;
            drawn += 1;
        }
        let what = "drawn sheets, damaged ones, and policies each";
        self.told("sheets", drawn, what)
    }

    /// Every sheet of up to this many tokens.
    fn every_sheet(&mut self, tokens: &[&[u8]], most: usize, name: &str) -> Result<(), Stop> {
        let mut made = 0;
        sheets::every_sheet(tokens, most, &mut Vec::new(), &mut |sheet| {
            made += 1;
            self.sheet("sheets", sheet, sheet_case::check_once)
        })?;
        self.told("sheets", made, &format!("sheets of up to {most} {name}"))
    }

    /// A drawn sheet, a damaged one, the sheet of a drawn policy, and now and then of bytes that are no policy.
    pub(super) fn drawn_sheets(&self, random: &mut Random) -> Result<(), Stop> {
        self.sheet("sheets", &sheets::drawn(random), sheet_case::check_read)?;
        self.sheet("sheets", &sheets::damaged(random), sheet_case::check_read)?;
        let policy = match random.below(8) {
            0 => policies::refused(random).bytes,
            _ => sheets::drawn_policy(random),
        };
        self.written_sheet(&policy)
    }

    /// Sheets of the longest length, and how many they are.
    pub(super) fn sheets_around_limit(&self) -> Result<u64, Stop> {
        let long = [LONGEST_TEXT, LONGEST_TEXT - 1].map(sheets::of_length);
        for sheet in long.as_flattened() {
            self.sheet("limits", sheet, sheet_case::check_once)?;
        }
        Ok(long.as_flattened().len() as u64)
    }
}
