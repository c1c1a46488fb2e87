//! Calls that are counted by their function.

use std::cell::RefCell;
use std::collections::BTreeMap;

use crate::calls::Calls;

/// Calls, and how many there were of each function.
pub struct Counted<'a> {
    calls: &'a dyn Calls,
    numbers: RefCell<BTreeMap<&'static str, u64>>,
}

impl<'a> Counted<'a> {
    /// Counts calls from now on.
    #[must_use]
    pub fn new(calls: &'a dyn Calls) -> Self {
        Self {
            calls,
            numbers: RefCell::default(),
        }
    }

    /// The calls of a function so far, by its name but for `tilghorz_`.
    #[must_use]
    pub fn number(&self, name: &str) -> u64 {
        self.numbers.borrow().get(name).copied().unwrap_or(0)
    }

    /// The calls, after one more was counted.
    fn count(&self, name: &'static str) -> &dyn Calls {
        *self.numbers.borrow_mut().entry(name).or_insert(0) += 1;
        self.calls
    }
}

impl Calls for Counted<'_> {
    fn format(&self, text: &[u8], policy: &[u8], out: &mut [u8]) -> u64 {
        self.count("format").format(text, policy, out)
    }

    fn list(&self, text: &[u8], policy: &[u8], table: &mut [u8]) -> u64 {
        self.count("list").list(text, policy, table)
    }

    fn mend(
        &self,
        text: &[u8],
        policy: &[u8],
        offset: u64,
        decisions: &[u8],
        out: &mut [u8],
    ) -> u64 {
        self.count("mend")
            .mend(text, policy, offset, decisions, out)
    }

    fn scan(&self, text: &[u8], table: &mut [u8]) -> u64 {
        self.count("scan").scan(text, table)
    }

    fn repair(&self, text: &[u8], out: &mut [u8]) -> u64 {
        self.count("repair").repair(text, out)
    }

    fn around(
        &self,
        text: &[u8],
        policy: &[u8],
        from: u64,
        to: u64,
        inside: &mut [u8],
        sharing: &mut [u8],
    ) -> u64 {
        self.count("around")
            .around(text, policy, from, to, inside, sharing)
    }

    fn nearest(&self, text: &[u8], policy: &[u8], offset: u64, row: &mut [u8]) -> u64 {
        self.count("nearest").nearest(text, policy, offset, row)
    }

    fn cut(&self, bytes: &[u8], offset: u64) -> u64 {
        self.count("cut").cut(bytes, offset)
    }

    fn feed_begin(&self, policy: &[u8], feed: &mut [u8]) -> u64 {
        self.count("feed_begin").feed_begin(policy, feed)
    }

    fn feed_piece(&self, feed: &mut [u8], piece: &[u8], out: &mut [u8]) -> u64 {
        self.count("feed_piece").feed_piece(feed, piece, out)
    }

    fn feed_end(&self, feed: &mut [u8], out: &mut [u8]) -> u64 {
        self.count("feed_end").feed_end(feed, out)
    }

    fn feed_policy(&self, feed: &mut [u8], policy: &[u8]) -> u64 {
        self.count("feed_policy").feed_policy(feed, policy)
    }

    fn feed_totals(&self, feed: &[u8], totals: &mut [u8]) -> u64 {
        self.count("feed_totals").feed_totals(feed, totals)
    }

    fn read_sheet(&self, sheet: &[u8], out: &mut [u8]) -> u64 {
        self.count("read_sheet").read_sheet(sheet, out)
    }

    fn write_sheet(&self, policy: &[u8], out: &mut [u8]) -> u64 {
        self.count("write_sheet").write_sheet(policy, out)
    }

    fn carry_policy(&self, entries: &[u8], policy: &[u8], out: &mut [u8]) -> u64 {
        self.count("carry_policy")
            .carry_policy(entries, policy, out)
    }

    fn tips(&self, text: &[u8], policy: &[u8], table: &mut [u8]) -> u64 {
        self.count("tips").tips(text, policy, table)
    }

    fn store_begin(&self, capacity: u64, reserves: &[u8], store: &mut [u8]) -> u64 {
        self.count("store_begin")
            .store_begin(capacity, reserves, store)
    }

    fn store_file(
        &self,
        store: &mut [u8],
        text: &[u8],
        policy: &[u8],
        client: u64,
        number: u64,
        out: &mut [u8],
    ) -> u64 {
        self.count("store_file")
            .store_file(store, text, policy, client, number, out)
    }

    fn store_release(&self, store: &mut [u8], client: u64, number: u64) -> u64 {
        self.count("store_release")
            .store_release(store, client, number)
    }

    fn store_used(&self, store: &[u8], client: u64) -> u64 {
        self.count("store_used").store_used(store, client)
    }

    fn default_policy(&self, out: &mut [u8]) -> u64 {
        self.count("default_policy").default_policy(out)
    }

    fn variation_entry(&self, index: u64) -> u64 {
        self.count("variation_entry").variation_entry(index)
    }

    fn version(&self) -> u64 {
        self.count("version").version()
    }
}
