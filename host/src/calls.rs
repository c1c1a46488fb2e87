//! The C functions of the library as a trait of safe functions on lent buffers, and the word that each answers.
//!
//! [`Calls`] has three kinds of implementations: the linked library, [`Reference`], and wrappers with a planted fault.

use std::fmt::{self, Display, Formatter};

use crate::reference::calls::{self, Draft};
use crate::reference::{carry, characters, cut, kept, near, policy, sheet, store, tips};

/// The bytes of a policy.
pub const POLICY_BYTES: usize = 200;
/// The bytes of a finding in a table.
pub const FINDING_BYTES: usize = 112;
/// The bytes of the nearest finding and its distance.
pub const NEAREST_BYTES: usize = 120;
/// The bytes of an item in a table.
pub const ITEM_BYTES: usize = 64;
/// No sheet that is written has more bytes.
pub const SHEET_ROOM: usize = 9916;
/// The bytes of a membership in a table.
pub const TIP_BYTES: usize = 24;

/// The functions of `include/tilghorz.h`, each with its slices.
pub trait Calls {
    /// `tilghorz_format`.
    fn format(&self, text: &[u8], policy: &[u8], out: &mut [u8]) -> u64;
    /// `tilghorz_list`.
    fn list(&self, text: &[u8], policy: &[u8], table: &mut [u8]) -> u64;
    /// `tilghorz_mend`.
    fn mend(
        &self,
        text: &[u8],
        policy: &[u8],
        offset: u64,
        decisions: &[u8],
        out: &mut [u8],
    ) -> u64;
    /// `tilghorz_scan`.
    fn scan(&self, text: &[u8], table: &mut [u8]) -> u64;
    /// `tilghorz_repair`.
    fn repair(&self, text: &[u8], out: &mut [u8]) -> u64;
    /// `tilghorz_around`.
    fn around(
        &self,
        text: &[u8],
        policy: &[u8],
        from: u64,
        to: u64,
        inside: &mut [u8],
        sharing: &mut [u8],
    ) -> u64;
    /// `tilghorz_nearest`.
    fn nearest(&self, text: &[u8], policy: &[u8], offset: u64, row: &mut [u8]) -> u64;
    /// `tilghorz_cut`.
    fn cut(&self, bytes: &[u8], offset: u64) -> u64;
    /// `tilghorz_feed_begin`.
    fn feed_begin(&self, policy: &[u8], feed: &mut [u8]) -> u64;
    /// `tilghorz_feed_piece`.
    fn feed_piece(&self, feed: &mut [u8], piece: &[u8], out: &mut [u8]) -> u64;
    /// `tilghorz_feed_end`.
    fn feed_end(&self, feed: &mut [u8], out: &mut [u8]) -> u64;
    /// `tilghorz_feed_policy`.
    fn feed_policy(&self, feed: &mut [u8], policy: &[u8]) -> u64;
    /// `tilghorz_feed_totals`.
    fn feed_totals(&self, feed: &[u8], totals: &mut [u8]) -> u64;
    /// `tilghorz_read_sheet`.
    fn read_sheet(&self, sheet: &[u8], out: &mut [u8]) -> u64;
    /// `tilghorz_write_sheet`.
    fn write_sheet(&self, policy: &[u8], out: &mut [u8]) -> u64;
    /// `tilghorz_carry_policy`.
    fn carry_policy(&self, entries: &[u8], policy: &[u8], out: &mut [u8]) -> u64;
    /// `tilghorz_tips`.
    fn tips(&self, text: &[u8], policy: &[u8], table: &mut [u8]) -> u64;
    /// `tilghorz_store_begin`.
    fn store_begin(&self, capacity: u64, reserves: &[u8], store: &mut [u8]) -> u64;
    /// `tilghorz_store_file`.
    fn store_file(
        &self,
        store: &mut [u8],
        text: &[u8],
        policy: &[u8],
        client: u64,
        number: u64,
        out: &mut [u8],
    ) -> u64;
    /// `tilghorz_store_release`.
    fn store_release(&self, store: &mut [u8], client: u64, number: u64) -> u64;
    /// `tilghorz_store_used`.
    fn store_used(&self, store: &[u8], client: u64) -> u64;
    /// `tilghorz_default_policy`.
    fn default_policy(&self, out: &mut [u8]) -> u64;
    /// `tilghorz_variation_entry`.
    fn variation_entry(&self, index: u64) -> u64;
    /// `tilghorz_version`.
    fn version(&self) -> u64;
}

/// An answer: the number in a word's top 8 bits, and the value in its low 56.
#[derive(Debug, Clone, Copy, PartialEq, Eq)]
pub struct Answer {
    /// 0 done, 1 to 15 a refusal, 255 nothing to do.
    pub number: u8,
    /// What the table of refusals says is returned, or what was written.
    pub value: u64,
}

impl Answer {
    /// The number of an answer that wrote its result.
    pub const DONE: u8 = 0;
    /// The answer of a call with nothing to do.
    pub const NOTHING: Self = Self::new(255, 0);

    /// An answer.
    #[must_use]
    pub const fn new(number: u8, value: u64) -> Self {
        Self { number, value }
    }

    /// The answer of a word.
    #[must_use]
    pub const fn of_word(word: u64) -> Self {
        Self::new((word >> 56) as u8, word & 0x00FF_FFFF_FFFF_FFFF)
    }

    /// The word of an answer.
    #[must_use]
    pub const fn word(self) -> u64 {
        ((self.number as u64) << 56) | self.value
    }

    /// Whether it is one of the refusals.
    #[must_use]
    pub const fn is_refusal(self) -> bool {
        self.number != Self::DONE && self.number != Self::NOTHING.number
    }
}

impl Display for Answer {
    fn fmt(&self, out: &mut Formatter<'_>) -> fmt::Result {
        let Self { number, value } = *self;
        match number {
            Self::DONE => write!(out, "done, {value}"),
            255 => write!(out, "nothing to do, {value}"),
            _ => write!(out, "refused {number}, {value}"),
        }
    }
}

/// The answers of the independent reading of documents 01 and 02.
pub struct Reference;

impl Calls for Reference {
    fn format(&self, text: &[u8], policy: &[u8], out: &mut [u8]) -> u64 {
        write(&calls::format(text, policy), out)
    }

    fn list(&self, text: &[u8], policy: &[u8], table: &mut [u8]) -> u64 {
        write(&calls::list(text, policy), table)
    }

    fn mend(
        &self,
        text: &[u8],
        policy: &[u8],
        offset: u64,
        decisions: &[u8],
        out: &mut [u8],
    ) -> u64 {
        write(&calls::mend(text, policy, offset, decisions), out)
    }

    fn scan(&self, text: &[u8], table: &mut [u8]) -> u64 {
        write(&calls::scan(text), table)
    }

    fn repair(&self, text: &[u8], out: &mut [u8]) -> u64 {
        write(&calls::repair(text), out)
    }

    fn around(
        &self,
        text: &[u8],
        policy: &[u8],
        from: u64,
        to: u64,
        inside: &mut [u8],
        sharing: &mut [u8],
    ) -> u64 {
        let drafts = near::around(text, policy, from, to);
        let (answer, written) = drafts.with_rooms([inside.len(), sharing.len()]);
        inside[..written[0].len()].copy_from_slice(written[0]);
        sharing[..written[1].len()].copy_from_slice(written[1]);
        answer.word()
    }

    fn nearest(&self, text: &[u8], policy: &[u8], offset: u64, row: &mut [u8]) -> u64 {
        write(&near::nearest(text, policy, offset), row)
    }

    fn cut(&self, bytes: &[u8], offset: u64) -> u64 {
        cut::cut(bytes, offset).word()
    }

    fn feed_begin(&self, policy: &[u8], feed: &mut [u8]) -> u64 {
        kept::begin(policy, feed).word()
    }

    fn feed_piece(&self, feed: &mut [u8], piece: &[u8], out: &mut [u8]) -> u64 {
        kept::piece(feed, piece, out).word()
    }

    fn feed_end(&self, feed: &mut [u8], out: &mut [u8]) -> u64 {
        kept::end(feed, out).word()
    }

    fn feed_policy(&self, feed: &mut [u8], policy: &[u8]) -> u64 {
        kept::change_policy(feed, policy).word()
    }

    fn feed_totals(&self, feed: &[u8], totals: &mut [u8]) -> u64 {
        kept::totals(feed, totals).word()
    }

    fn read_sheet(&self, sheet: &[u8], out: &mut [u8]) -> u64 {
        write(&sheet::read(sheet), out)
    }

    fn write_sheet(&self, policy: &[u8], out: &mut [u8]) -> u64 {
        write(&sheet::write(policy), out)
    }

    fn carry_policy(&self, entries: &[u8], policy: &[u8], out: &mut [u8]) -> u64 {
        write(&carry::carry(entries, policy), out)
    }

    fn tips(&self, text: &[u8], policy: &[u8], table: &mut [u8]) -> u64 {
        write(&tips::list(text, policy), table)
    }

    fn store_begin(&self, capacity: u64, reserves: &[u8], store: &mut [u8]) -> u64 {
        store::begin(capacity, reserves, store).word()
    }

    fn store_file(
        &self,
        store: &mut [u8],
        text: &[u8],
        policy: &[u8],
        client: u64,
        number: u64,
        out: &mut [u8],
    ) -> u64 {
        store::file(
            store,
            &calls::format(text, policy),
            text.len(),
            [client, number],
            out,
        )
        .word()
    }

    fn store_release(&self, store: &mut [u8], client: u64, number: u64) -> u64 {
        store::release(store, client, number).word()
    }

    fn store_used(&self, store: &[u8], client: u64) -> u64 {
        store::used(store, client).word()
    }

    fn default_policy(&self, out: &mut [u8]) -> u64 {
        write(&Draft::bytes(policy::default_policy().to_vec()), out)
    }

    fn variation_entry(&self, index: u64) -> u64 {
        let entry = characters::entry(index).map(|entry| Answer::new(Answer::DONE, entry.into()));
        entry.unwrap_or(Answer::NOTHING).word()
    }

    fn version(&self) -> u64 {
        Answer::new(Answer::DONE, policy::version()).word()
    }
}

/// Writes what a call writes where it has this room, and gives its word.
fn write(draft: &Draft, out: &mut [u8]) -> u64 {
    let (answer, written) = draft.with_room(out.len());
    out[..written.len()].copy_from_slice(written);
    answer.word()
}
