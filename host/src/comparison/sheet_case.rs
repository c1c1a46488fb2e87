//! What reading a sheet and writing one do, beside the independent reading of document 02, (vi).

use std::collections::BTreeSet;

use super::lent::{Difference, hexadecimal, lend, same};
use crate::calls::Calls;
use crate::reference::calls::Draft;
use crate::reference::{policy, sheet};

/// Compares reading a sheet in an output that has just the room for a policy.
pub fn check_once(calls: &dyn Calls, sheet: &[u8]) -> Result<(), Difference> {
    read_in(calls, sheet, &sheet::read(sheet), policy::bytes())
}

/// Compares reading a sheet in outputs of several lengths.
pub fn check_read(calls: &dyn Calls, sheet: &[u8]) -> Result<(), Difference> {
    let (draft, bytes) = (sheet::read(sheet), policy::bytes());
    let mut rooms = [0, bytes - 1, bytes, bytes + 1, bytes + 100].into_iter();
    rooms.try_for_each(|room| read_in(calls, sheet, &draft, room))
}

/// Compares reading a sheet in an output of this length.
fn read_in(calls: &dyn Calls, sheet: &[u8], draft: &Draft, room: usize) -> Result<(), Difference> {
    let name = || "read sheet".to_owned();
    lend(name, draft, room, |out| calls.read_sheet(sheet, out))
}

/// Compares writing the sheet of a policy, which may be none, in outputs of several lengths. "A written sheet reads back
/// to its policy": that holds for the independent reading too, so a mistake that both have would be seen.
pub fn check_write(calls: &dyn Calls, policy: &[u8]) -> Result<(), Difference> {
    let draft = sheet::write(policy);
    let wanted = draft.wanted();
    let off = [wanted.saturating_sub(1), wanted, wanted + 1];
    let rooms: BTreeSet<usize> = [0].into_iter().chain(off).chain([wanted + 100]).collect();
    for room in rooms {
        let name = || "write sheet".to_owned();
        lend(name, &draft, room, |out| calls.write_sheet(policy, out))?;
    }
    let Draft::Writes { bytes: sheet, .. } = draft else {
        return Ok(());
    };
    let back = sheet::read(&sheet);
    let (_, found) = back.with_room(policy::bytes());
    let name = || "the policy of a written sheet, by the reading of document 02".to_owned();
    same(name, &policy, &found, |bytes| hexadecimal(bytes))?;
    check_read(calls, &sheet)
}
