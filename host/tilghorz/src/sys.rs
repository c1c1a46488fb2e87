//! The C functions as they cross, after safe functions on slices. All that is unsafe in this package is here.
//!
//! What makes each call sound: a slice passes as its own pointer and length, so the library may read all of it and,
//! if it is borrowed mutably, write all of it; a mutable slice overlaps no other; no pointer of a slice is null. The
//! library keeps no pointer. `host/tests/header.rs` holds these declarations to `include/tilghorz.h` and to the source
//! in `crates/tilghorz/src`, which has the contracts.
//!
//! Each function answers the word that the header describes. The functions of the crate root read it.

#![allow(unsafe_code)]

use std::slice;

use crate::Presentation;

/// The bytes of a policy.
pub const POLICY_BYTES: usize = 200;
/// The bytes of a finding in a table.
pub const FINDING_BYTES: usize = 112;
/// The bytes of the nearest finding and its distance.
pub const NEAREST_BYTES: usize = 120;
/// The bytes of an item in a table.
pub const ITEM_BYTES: usize = 64;
/// The bytes of a membership in a table.
pub const TIP_BYTES: usize = 24;
/// The bytes of a feed.
pub const FEED_BYTES: usize = 528;
/// The bytes of the totals of a feed.
pub const TOTALS_BYTES: usize = 64;
/// No sheet that is written has more bytes.
pub const SHEET_ROOM: usize = 9916;
/// The bytes of a store.
pub const STORE_BYTES: usize = 33032;

unsafe extern "C" {
    fn tilghorz_format(
        text: *const u8,
        text_len: usize,
        policy: *const u8,
        policy_len: usize,
        out: *mut u8,
        out_len: usize,
    ) -> u64;
    fn tilghorz_list(
        text: *const u8,
        text_len: usize,
        policy: *const u8,
        policy_len: usize,
        table: *mut u8,
        table_len: usize,
    ) -> u64;
    fn tilghorz_mend(
        text: *const u8,
        text_len: usize,
        policy: *const u8,
        policy_len: usize,
        offset: u64,
        decisions: *const u8,
        decisions_len: usize,
        out: *mut u8,
        out_len: usize,
    ) -> u64;
    fn tilghorz_scan(text: *const u8, text_len: usize, table: *mut u8, table_len: usize) -> u64;
    fn tilghorz_repair(text: *const u8, text_len: usize, out: *mut u8, out_len: usize) -> u64;
    fn tilghorz_around(
        text: *const u8,
        text_len: usize,
        policy: *const u8,
        policy_len: usize,
        from: u64,
        to: u64,
        inside: *mut u8,
        inside_len: usize,
        sharing: *mut u8,
        sharing_len: usize,
    ) -> u64;
    fn tilghorz_nearest(
        text: *const u8,
        text_len: usize,
        policy: *const u8,
        policy_len: usize,
        offset: u64,
        row: *mut u8,
        row_len: usize,
    ) -> u64;
    fn tilghorz_cut(bytes: *const u8, bytes_len: usize, offset: u64) -> u64;
    fn tilghorz_feed_begin(
        policy: *const u8,
        policy_len: usize,
        feed: *mut u8,
        feed_len: usize,
    ) -> u64;
    fn tilghorz_feed_piece(
        feed: *mut u8,
        feed_len: usize,
        piece: *const u8,
        piece_len: usize,
        out: *mut u8,
        out_len: usize,
    ) -> u64;
    fn tilghorz_feed_end(feed: *mut u8, feed_len: usize, out: *mut u8, out_len: usize) -> u64;
    fn tilghorz_feed_policy(
        feed: *mut u8,
        feed_len: usize,
        policy: *const u8,
        policy_len: usize,
    ) -> u64;
    fn tilghorz_feed_totals(
        feed: *const u8,
        feed_len: usize,
        totals: *mut u8,
        totals_len: usize,
    ) -> u64;
    fn tilghorz_read_sheet(sheet: *const u8, sheet_len: usize, out: *mut u8, out_len: usize)
    -> u64;
    fn tilghorz_write_sheet(
        policy: *const u8,
        policy_len: usize,
        out: *mut u8,
        out_len: usize,
    ) -> u64;
    fn tilghorz_carry_policy(
        entries: *const u8,
        entries_len: usize,
        policy: *const u8,
        policy_len: usize,
        out: *mut u8,
        out_len: usize,
    ) -> u64;
    fn tilghorz_tips(
        text: *const u8,
        text_len: usize,
        policy: *const u8,
        policy_len: usize,
        table: *mut u8,
        table_len: usize,
    ) -> u64;
    fn tilghorz_store_begin(
        capacity: u64,
        reserves: *const u8,
        reserves_len: usize,
        store: *mut u8,
        store_len: usize,
    ) -> u64;
    fn tilghorz_store_file(
        store: *mut u8,
        store_len: usize,
        text: *const u8,
        text_len: usize,
        policy: *const u8,
        policy_len: usize,
        client: u64,
        number: u64,
        out: *mut u8,
        out_len: usize,
    ) -> u64;
    fn tilghorz_store_release(store: *mut u8, store_len: usize, client: u64, number: u64) -> u64;
    fn tilghorz_store_used(store: *const u8, store_len: usize, client: u64) -> u64;
    fn tilghorz_default_policy(out: *mut u8, out_len: usize) -> u64;
    fn tilghorz_variation_entry(index: u64) -> u64;
    fn tilghorz_version() -> u64;
}

/// `tilghorz_format`: formats a text under a policy.
#[must_use]
pub fn format(text: &[u8], policy: &[u8], out: &mut [u8]) -> u64 {
    // SAFETY: as the head of this file says.
    unsafe {
        tilghorz_format(
            text.as_ptr(),
            text.len(),
            policy.as_ptr(),
            policy.len(),
            out.as_mut_ptr(),
            out.len(),
        )
    }
}

/// `tilghorz_list`: lists the findings.
#[must_use]
pub fn list(text: &[u8], policy: &[u8], table: &mut [u8]) -> u64 {
    // SAFETY: as the head of this file says.
    unsafe {
        tilghorz_list(
            text.as_ptr(),
            text.len(),
            policy.as_ptr(),
            policy.len(),
            table.as_mut_ptr(),
            table.len(),
        )
    }
}

/// `tilghorz_mend`: writes the text with one finding mended.
#[must_use]
pub fn mend(text: &[u8], policy: &[u8], offset: u64, decisions: &[u8], out: &mut [u8]) -> u64 {
    // SAFETY: as the head of this file says.
    unsafe {
        tilghorz_mend(
            text.as_ptr(),
            text.len(),
            policy.as_ptr(),
            policy.len(),
            offset,
            decisions.as_ptr(),
            decisions.len(),
            out.as_mut_ptr(),
            out.len(),
        )
    }
}

/// The bytes of decisions, as [`mend`] takes them.
pub(crate) const fn decision_bytes(decisions: &[Presentation]) -> &[u8] {
    // SAFETY: a decision is one byte, 0 or 1 (`repr(u8)`), so the slice is as many bytes, borrowed as long.
    unsafe { slice::from_raw_parts(decisions.as_ptr().cast(), decisions.len()) }
}

/// `tilghorz_scan`: lists the items.
#[must_use]
pub fn scan(text: &[u8], table: &mut [u8]) -> u64 {
    // SAFETY: as the head of this file says.
    unsafe { tilghorz_scan(text.as_ptr(), text.len(), table.as_mut_ptr(), table.len()) }
}

/// `tilghorz_repair`: writes the text with FFFD for each bad place.
#[must_use]
pub fn repair(text: &[u8], out: &mut [u8]) -> u64 {
    // SAFETY: as the head of this file says.
    unsafe { tilghorz_repair(text.as_ptr(), text.len(), out.as_mut_ptr(), out.len()) }
}

/// `tilghorz_around`: lists the findings inside a stretch, and those that only share a byte with it.
#[must_use]
pub fn around(
    text: &[u8],
    policy: &[u8],
    from: u64,
    to: u64,
    inside: &mut [u8],
    sharing: &mut [u8],
) -> u64 {
    // SAFETY: as the head of this file says.
    unsafe {
        tilghorz_around(
            text.as_ptr(),
            text.len(),
            policy.as_ptr(),
            policy.len(),
            from,
            to,
            inside.as_mut_ptr(),
            inside.len(),
            sharing.as_mut_ptr(),
            sharing.len(),
        )
    }
}

/// `tilghorz_nearest`: writes the finding that is nearest to an offset.
#[must_use]
pub fn nearest(text: &[u8], policy: &[u8], offset: u64, row: &mut [u8]) -> u64 {
    // SAFETY: as the head of this file says.
    unsafe {
        tilghorz_nearest(
            text.as_ptr(),
            text.len(),
            policy.as_ptr(),
            policy.len(),
            offset,
            row.as_mut_ptr(),
            row.len(),
        )
    }
}

/// `tilghorz_cut`: the largest offset, at or below an offset, where bytes may be cut for two workers.
#[must_use]
pub fn cut(bytes: &[u8], offset: u64) -> u64 {
    // SAFETY: as the head of this file says.
    unsafe { tilghorz_cut(bytes.as_ptr(), bytes.len(), offset) }
}

/// `tilghorz_feed_begin`: begins a feed under a policy.
#[must_use]
pub fn feed_begin(policy: &[u8], feed: &mut [u8]) -> u64 {
    // SAFETY: as the head of this file says.
    unsafe { tilghorz_feed_begin(policy.as_ptr(), policy.len(), feed.as_mut_ptr(), feed.len()) }
}

/// `tilghorz_feed_piece`: feeds the next bytes of a thread. A short piece takes some ten nanoseconds, so the function is
/// inlined.
#[inline]
#[must_use]
pub fn feed_piece(feed: &mut [u8], piece: &[u8], out: &mut [u8]) -> u64 {
    // SAFETY: as the head of this file says.
    unsafe {
        tilghorz_feed_piece(
            feed.as_mut_ptr(),
            feed.len(),
            piece.as_ptr(),
            piece.len(),
            out.as_mut_ptr(),
            out.len(),
        )
    }
}

/// `tilghorz_feed_end`: ends a thread.
#[must_use]
pub fn feed_end(feed: &mut [u8], out: &mut [u8]) -> u64 {
    // SAFETY: as the head of this file says.
    unsafe { tilghorz_feed_end(feed.as_mut_ptr(), feed.len(), out.as_mut_ptr(), out.len()) }
}

/// `tilghorz_feed_policy`: changes the policy of a feed.
#[must_use]
pub fn feed_policy(feed: &mut [u8], policy: &[u8]) -> u64 {
    // SAFETY: as the head of this file says.
    unsafe { tilghorz_feed_policy(feed.as_mut_ptr(), feed.len(), policy.as_ptr(), policy.len()) }
}

/// `tilghorz_feed_totals`: writes the totals of a thread so far.
#[must_use]
pub fn feed_totals(feed: &[u8], totals: &mut [u8]) -> u64 {
    // SAFETY: as the head of this file says.
    unsafe { tilghorz_feed_totals(feed.as_ptr(), feed.len(), totals.as_mut_ptr(), totals.len()) }
}

/// `tilghorz_read_sheet`: writes the policy of a sheet.
#[must_use]
pub fn read_sheet(sheet: &[u8], out: &mut [u8]) -> u64 {
    // SAFETY: as the head of this file says.
    unsafe { tilghorz_read_sheet(sheet.as_ptr(), sheet.len(), out.as_mut_ptr(), out.len()) }
}

/// `tilghorz_write_sheet`: writes the sheet of a policy.
#[must_use]
pub fn write_sheet(policy: &[u8], out: &mut [u8]) -> u64 {
    // SAFETY: as the head of this file says.
    unsafe { tilghorz_write_sheet(policy.as_ptr(), policy.len(), out.as_mut_ptr(), out.len()) }
}

/// `tilghorz_carry_policy`: writes a policy, carried over from the tables of another version.
#[must_use]
pub fn carry_policy(entries: &[u8], policy: &[u8], out: &mut [u8]) -> u64 {
    // SAFETY: as the head of this file says.
    unsafe {
        tilghorz_carry_policy(
            entries.as_ptr(),
            entries.len(),
            policy.as_ptr(),
            policy.len(),
            out.as_mut_ptr(),
            out.len(),
        )
    }
}

/// `tilghorz_tips`: lists the memberships whose flip alone alters the formatted text.
#[must_use]
pub fn tips(text: &[u8], policy: &[u8], table: &mut [u8]) -> u64 {
    // SAFETY: as the head of this file says.
    unsafe {
        tilghorz_tips(
            text.as_ptr(),
            text.len(),
            policy.as_ptr(),
            policy.len(),
            table.as_mut_ptr(),
            table.len(),
        )
    }
}

/// `tilghorz_store_begin`: begins a store of a capacity, with the reserves of its clients.
#[must_use]
pub fn store_begin(capacity: u64, reserves: &[u8], store: &mut [u8]) -> u64 {
    // SAFETY: as the head of this file says.
    unsafe {
        tilghorz_store_begin(
            capacity,
            reserves.as_ptr(),
            reserves.len(),
            store.as_mut_ptr(),
            store.len(),
        )
    }
}

/// `tilghorz_store_file`: formats a text and charges the formatted length to a client.
#[must_use]
pub fn store_file(
    store: &mut [u8],
    text: &[u8],
    policy: &[u8],
    client: u64,
    number: u64,
    out: &mut [u8],
) -> u64 {
    // SAFETY: as the head of this file says.
    unsafe {
        tilghorz_store_file(
            store.as_mut_ptr(),
            store.len(),
            text.as_ptr(),
            text.len(),
            policy.as_ptr(),
            policy.len(),
            client,
            number,
            out.as_mut_ptr(),
            out.len(),
        )
    }
}

/// `tilghorz_store_release`: gives the bytes of a filed message back.
#[must_use]
pub fn store_release(store: &mut [u8], client: u64, number: u64) -> u64 {
    // SAFETY: as the head of this file says.
    unsafe { tilghorz_store_release(store.as_mut_ptr(), store.len(), client, number) }
}

/// `tilghorz_store_used`: the number of bytes charged to a client.
#[must_use]
pub fn store_used(store: &[u8], client: u64) -> u64 {
    // SAFETY: as the head of this file says.
    unsafe { tilghorz_store_used(store.as_ptr(), store.len(), client) }
}

/// `tilghorz_default_policy`: writes the default policy.
#[must_use]
pub fn default_policy(out: &mut [u8]) -> u64 {
    // SAFETY: as the head of this file says.
    unsafe { tilghorz_default_policy(out.as_mut_ptr(), out.len()) }
}

/// `tilghorz_variation_entry`: the code point of a variation entry.
#[must_use]
pub fn variation_entry(index: u64) -> u64 {
    // SAFETY: the function takes a number.
    unsafe { tilghorz_variation_entry(index) }
}

/// `tilghorz_version`: the version of the tables.
#[must_use]
pub fn version() -> u64 {
    // SAFETY: the function takes nothing.
    unsafe { tilghorz_version() }
}
