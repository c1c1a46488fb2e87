//! Every call once, beside formatting the same text.

use std::hint::black_box;

use compare::library::Library;
use tilghorz_comparison::calls::{
    Answer, Calls, FINDING_BYTES, ITEM_BYTES, NEAREST_BYTES, POLICY_BYTES, SHEET_ROOM, TIP_BYTES,
};
use tilghorz_comparison::reference::feed::room;
use tilghorz_comparison::reference::policy::default_policy;

/// What is measured, in the order of the table. A feed and a filing are several calls, since one call alone cannot be
/// repeated.
pub const NAMES: [&str; 19] = [
    "format",
    "list",
    "mend, the last finding",
    "scan",
    "repair",
    "around, the whole text",
    "nearest, to the middle",
    "cut, at the middle",
    "feed: begin, one piece, end",
    "feed_totals",
    "feed_policy",
    "read_sheet, of the default policy",
    "write_sheet, of the default policy",
    "carry_policy, from our own table",
    "tips",
    "store: file and release",
    "store_used",
    "default_policy",
    "variation_entry, all",
];

/// A text, and the buffers that are lent. No call clears them.
pub struct Each<'a> {
    text: &'a [u8],
    policy: Vec<u8>,
    sheet: Vec<u8>,
    entries: Vec<u8>,
    begun: Vec<u8>,
    feed: Vec<u8>,
    store: Vec<u8>,
    findings: Vec<u8>,
    sharing: Vec<u8>,
    items: Vec<u8>,
    tips: Vec<u8>,
    out: Vec<u8>,
    /// The start of the last finding, and one decision for each that it has.
    last: (u64, Vec<u8>),
}

/// The value of a call that is refused for want of room, or that is done.
fn value(word: u64) -> usize {
    Answer::of_word(word).value as usize
}

/// A call into a buffer of the length that it wants.
fn filled(call: impl Fn(&mut [u8]) -> u64) -> Vec<u8> {
    let mut out = vec![0; value(call(&mut []))];
    call(&mut out);
    out
}

impl<'a> Each<'a> {
    /// Prepares a text.
    pub fn new(text: &'a [u8]) -> Self {
        let policy = default_policy().to_vec();
        let count = value(Library.list(text, &policy, &mut []));
        let mut findings = vec![0; count * FINDING_BYTES];
        Library.list(text, &policy, &mut findings);
        let last = findings.last_chunk().map_or((0, Vec::new()), last_of);
        let all = (0..).map(|index| Answer::of_word(Library.variation_entry(index)));
        let entries = all.take_while(|answer| answer.number == Answer::DONE);
        let begun = filled(|feed| Library.feed_begin(&policy, feed));
        Self {
            text,
            sheet: filled(|out| Library.write_sheet(&policy, out)),
            entries: entries
                .flat_map(|answer| answer.value.to_le_bytes())
                .collect(),
            feed: begun.clone(),
            begun,
            store: filled(|store| Library.store_begin(1 << 40, &[], store)),
            findings,
            sharing: vec![0; 2 * FINDING_BYTES],
            items: vec![0; value(Library.scan(text, &mut [])) * ITEM_BYTES],
            tips: vec![0; value(Library.tips(text, &policy, &mut [])) * TIP_BYTES],
            out: vec![0; room(text.len()).max(SHEET_ROOM)],
            last,
            policy,
        }
    }

    /// Makes the call of this number in [`NAMES`]. It gives the answer of the last call that it makes.
    pub fn call(&mut self, number: usize) -> u64 {
        let text = black_box(self.text);
        let middle = text.len() as u64 / 2;
        black_box(match number {
            0 => Library.format(text, &self.policy, &mut self.out),
            1 => Library.list(text, &self.policy, &mut self.findings),
            2 => Library.mend(text, &self.policy, self.last.0, &self.last.1, &mut self.out),
            3 => Library.scan(text, &mut self.items),
            4 => Library.repair(text, &mut self.out),
            5 => self.around(),
            6 => Library.nearest(text, &self.policy, middle, &mut self.out[..NEAREST_BYTES]),
            7 => Library.cut(text, middle),
            8 => self.feed_thread(),
            9 => Library.feed_totals(&self.feed, &mut self.out[..64]),
            10 => Library.feed_policy(black_box(&mut self.begun), &self.policy),
            11 => Library.read_sheet(&self.sheet, &mut self.out[..POLICY_BYTES]),
            12 => Library.write_sheet(&self.policy, &mut self.out),
            13 => Library.carry_policy(&self.entries, &self.policy, &mut self.out),
            14 => Library.tips(text, &self.policy, &mut self.tips),
            15 => self.file(),
            16 => Library.store_used(&self.store, 0),
            17 => Library.default_policy(&mut self.out),
            _ => self.look_up(),
        })
    }

    /// The findings around the whole text.
    fn around(&mut self) -> u64 {
        let to = self.text.len() as u64;
        let (inside, sharing) = (&mut self.findings, &mut self.sharing);
        Library.around(self.text, &self.policy, 0, to, inside, sharing)
    }

    /// A thread of one piece.
    fn feed_thread(&mut self) -> u64 {
        Library.feed_begin(&self.policy, &mut self.feed);
        Library.feed_piece(&mut self.feed, self.text, &mut self.out);
        Library.feed_end(&mut self.feed, &mut self.out)
    }

    /// A message that is filed and released.
    fn file(&mut self) -> u64 {
        Library.store_file(
            &mut self.store,
            self.text,
            &self.policy,
            0,
            0,
            &mut self.out,
        );
        Library.store_release(&mut self.store, 0, 0)
    }

    /// Every variation entry.
    fn look_up(&self) -> u64 {
        let entries = 0..self.entries.len() as u64 / 8;
        entries
            .map(|index| Library.variation_entry(black_box(index)))
            .sum()
    }
}

/// The start of the finding in a row, and a decision for each that it wants.
fn last_of(row: &[u8; FINDING_BYTES]) -> (u64, Vec<u8>) {
    let numbers = row.as_chunks::<8>().0;
    let wanted = u64::from_le_bytes(numbers[9]) as usize;
    (u64::from_le_bytes(numbers[0]), vec![0; wanted])
}
