//! The memberships whose flip alters one text under one policy.

use std::str;

use super::lent::{Difference, hexadecimal, lend, same};
use super::policies::Policy;
use crate::beside;
use crate::calls::{Calls, TIP_BYTES};
use crate::reference::calls::Draft;
use crate::reference::tips;

/// Compares the list for a text under a policy with the independent reading of document 02. With `by_the_crate`, that
/// reading is compared with the crate, which formats the text under each of the 1,416 flipped policies.
pub fn check(
    calls: &dyn Calls,
    text: &[u8],
    policy: &Policy,
    by_the_crate: bool,
) -> Result<(), Difference> {
    let draft = tips::list(text, &policy.bytes);
    if by_the_crate
        && let (Draft::Writes { bytes, .. }, Ok(text), Some(policy)) =
            (&draft, str::from_utf8(text), &policy.beside)
    {
        let name = || "the crate's flips (expected) beside the reading of document 02".to_owned();
        same(name, &beside::tips(text, policy), bytes, |bytes| {
            hexadecimal(bytes)
        })?;
    }
    for room in rooms(&draft) {
        let name = || "tips".to_owned();
        lend(name, &draft, room, |table| {
            calls.tips(text, &policy.bytes, table)
        })?;
    }
    Ok(())
}

/// The rooms to try: none; what is wanted, one byte less and some bytes more.
fn rooms(draft: &Draft) -> Vec<usize> {
    match draft.wanted() {
        0 => vec![0, 100],
        wanted => vec![0, wanted - 1, wanted, wanted + TIP_BYTES - 1],
    }
}
