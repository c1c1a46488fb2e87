//! The linked library as the calls that are compared, through the host library's own binding.

use tilghorz::sys;
use tilghorz_comparison::calls::Calls;

/// The linked library.
pub struct Library;

impl Calls for Library {
    fn format(&self, text: &[u8], policy: &[u8], out: &mut [u8]) -> u64 {
        sys::format(text, policy, out)
    }

    fn list(&self, text: &[u8], policy: &[u8], table: &mut [u8]) -> u64 {
        sys::list(text, policy, table)
    }

    fn mend(
        &self,
        text: &[u8],
        policy: &[u8],
        offset: u64,
        decisions: &[u8],
        out: &mut [u8],
    ) -> u64 {
        sys::mend(text, policy, offset, decisions, out)
    }

    fn scan(&self, text: &[u8], table: &mut [u8]) -> u64 {
        sys::scan(text, table)
    }

    fn repair(&self, text: &[u8], out: &mut [u8]) -> u64 {
        sys::repair(text, out)
    }

    fn around(
        &self,
        text: &[u8],
        policy: &[u8],
        from: u64,
        to: u64,
        inside: &mut [u8],
        sharing: &mut [u8],
    ) -> u64 {
        sys::around(text, policy, from, to, inside, sharing)
    }

    fn nearest(&self, text: &[u8], policy: &[u8], offset: u64, row: &mut [u8]) -> u64 {
        sys::nearest(text, policy, offset, row)
    }

    fn cut(&self, bytes: &[u8], offset: u64) -> u64 {
        sys::cut(bytes, offset)
    }

    fn feed_begin(&self, policy: &[u8], feed: &mut [u8]) -> u64 {
        sys::feed_begin(policy, feed)
    }

    #[inline]
    fn feed_piece(&self, feed: &mut [u8], piece: &[u8], out: &mut [u8]) -> u64 {
        sys::feed_piece(feed, piece, out)
    }

    fn feed_end(&self, feed: &mut [u8], out: &mut [u8]) -> u64 {
        sys::feed_end(feed, out)
    }

    fn feed_policy(&self, feed: &mut [u8], policy: &[u8]) -> u64 {
        sys::feed_policy(feed, policy)
    }

    fn feed_totals(&self, feed: &[u8], totals: &mut [u8]) -> u64 {
        sys::feed_totals(feed, totals)
    }

    fn read_sheet(&self, sheet: &[u8], out: &mut [u8]) -> u64 {
        sys::read_sheet(sheet, out)
    }

    fn write_sheet(&self, policy: &[u8], out: &mut [u8]) -> u64 {
        sys::write_sheet(policy, out)
    }

    fn carry_policy(&self, entries: &[u8], policy: &[u8], out: &mut [u8]) -> u64 {
        sys::carry_policy(entries, policy, out)
    }

    fn tips(&self, text: &[u8], policy: &[u8], table: &mut [u8]) -> u64 {
        sys::tips(text, policy, table)
    }

    fn store_begin(&self, capacity: u64, reserves: &[u8], store: &mut [u8]) -> u64 {
        sys::store_begin(capacity, reserves, store)
    }

    fn store_file(
        &self,
        store: &mut [u8],
        text: &[u8],
        policy: &[u8],
        client: u64,
        number: u64,
        out: &mut [u8],
    ) -> u64 {
        sys::store_file(store, text, policy, client, number, out)
    }

    fn store_release(&self, store: &mut [u8], client: u64, number: u64) -> u64 {
        sys::store_release(store, client, number)
    }

    fn store_used(&self, store: &[u8], client: u64) -> u64 {
        sys::store_used(store, client)
    }

    fn default_policy(&self, out: &mut [u8]) -> u64 {
        sys::default_policy(out)
    }

    fn variation_entry(&self, index: u64) -> u64 {
        sys::variation_entry(index)
    }

    fn version(&self) -> u64 {
        sys::version()
    }
}
