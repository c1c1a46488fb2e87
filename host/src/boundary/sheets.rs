//! Calls on sheets: reading one into a policy, and writing one for a policy.

use std::collections::BTreeSet;

use super::cases::Boundary;
use super::placed::{Placed, Spot};
use crate::calls::POLICY_BYTES;
use crate::comparison::lent::{Difference, hexadecimal, lend_between, same};
use crate::comparison::{policies, sheets};
use crate::reference::calls::{Draft, LONGEST_TEXT};
use crate::reference::policy::default_policy;
use crate::reference::sheet;

/// The lengths of sheets up to which each is tried.
const SMALL: usize = 72;
/// The lengths of policies, and of outputs for them, up to which each is tried.
const POLICIES: usize = 260;
/// A sheet with every kind of piece, whose beginnings are tried.
const PIECES: &[u8] = b"30-39,2764\n00A9,1F004-1F17F\n\n000030,39-41\n";
/// What a short sheet ends with: whole, with a further line, with a piece that is no entry, with ranges that run down.
const ENDS: [&[u8]; 8] = [
    b"\n\n\n\n",
    b"\n\n\n\n\n",
    b"\n\n\n41\n",
    b"\n\n\n30-41\n",
    b"39-30",
    b"39-30,",
    b"\n\n\n39-30\n",
    b"FFFFFF",
];

/// A call on a sheet.
#[derive(Debug, Clone, Copy, PartialEq, Eq)]
enum Call {
    Read,
    Write,
}

impl Boundary<'_> {
    /// Sheets of every small length with each kind of end, outputs of every small length, policies of every small length,
    /// and drawn ones.
    pub fn sheets(&mut self) -> Result<(), Difference> {
        for length in 0..=SMALL {
            let front: Vec<u8> = PIECES.iter().copied().cycle().take(length).collect();
            self.read_sheet(&front)?;
            let pieces: Vec<u8> = b"30,".iter().copied().cycle().take(length).collect();
            for end in ENDS {
                self.read_sheet(&[&pieces, end].concat())?;
            }
        }
        for sheet in [&b"30-39\n\n2764\n\n"[..], b"41\n\n\n\n", b"x", b""] {
            let draft = sheet::read(sheet);
            for room in 0..=POLICIES {
                self.sheet_call(Call::Read, sheet, &draft, room)?;
            }
        }
        for length in 0..=POLICIES {
            let mut policy = default_policy().to_vec();
            policy.resize(length, 0);
            self.write_sheet(&policy)?;
        }
        for policy in sheets::policies(&mut self.random) {
            self.write_sheet(&policy)?;
        }
        Ok(())
    }

    /// A drawn sheet, a damaged one, and the sheet of a drawn policy.
    pub fn drawn_sheets(&mut self) -> Result<(), Difference> {
        let sheet = sheets::drawn(&mut self.random);
        self.read_sheet(&sheet)?;
        let sheet = sheets::damaged(&mut self.random);
        self.read_sheet(&sheet)?;
        let policy = match self.random.below(8) {
            0 => policies::refused(&mut self.random).bytes,
            _ => sheets::drawn_policy(&mut self.random),
        };
        self.write_sheet(&policy)
    }

    /// Sheets of lengths around the limit.
    pub fn long_sheets(&mut self) -> Result<(), Difference> {
        for length in [LONGEST_TEXT + 1, LONGEST_TEXT, LONGEST_TEXT - 1] {
            for sheet in sheets::of_length(length) {
                let draft = sheet::read(&sheet);
                self.sheet_at(Call::Read, &sheet, &draft, POLICY_BYTES, Spot::EXACT)?;
            }
        }
        Ok(())
    }

    /// Reads a sheet into outputs of several lengths.
    fn read_sheet(&mut self, sheet: &[u8]) -> Result<(), Difference> {
        let draft = sheet::read(sheet);
        let mut rooms = [0, POLICY_BYTES - 1, POLICY_BYTES, POLICY_BYTES + 1].into_iter();
        rooms.try_for_each(|room| self.sheet_call(Call::Read, sheet, &draft, room))
    }

    /// Writes the sheet of a policy into outputs of several lengths.
    fn write_sheet(&mut self, policy: &[u8]) -> Result<(), Difference> {
        let draft = sheet::write(policy);
        let wanted = draft.wanted();
        let rooms = BTreeSet::from([0, 1, wanted.saturating_sub(1), wanted, wanted + 1]);
        rooms
            .into_iter()
            .try_for_each(|room| self.sheet_call(Call::Write, policy, &draft, room))
    }

    /// Makes a call with its slices at several places.
    fn sheet_call(
        &mut self,
        call: Call,
        input: &[u8],
        draft: &Draft,
        room: usize,
    ) -> Result<(), Difference> {
        for spot in self.spots() {
            self.sheet_at(call, input, draft, room, spot)?;
        }
        Ok(())
    }

    /// Makes a call with its slices at such a spot each.
    fn sheet_at(
        &mut self,
        call: Call,
        input: &[u8],
        draft: &Draft,
        room: usize,
        spot: Spot,
    ) -> Result<(), Difference> {
        let placed = Placed::new(input, spot);
        let name = || format!("{call:?} sheet on {}, {spot:?}", hexadecimal(input));
        self.made += 1;
        let margins = [spot.before, spot.after()];
        lend_between(margins, name, draft, room, |out| match call {
            Call::Read => self.calls.read_sheet(placed.bytes(), out),
            Call::Write => self.calls.write_sheet(placed.bytes(), out),
        })?;
        let stays = placed.is_as_made(input, spot);
        same(|| name() + ": it stays", &true, &stays, bool::to_string)
    }
}
