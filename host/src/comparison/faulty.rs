//! A wrapper of calls with a planted fault.

use std::cell::{Cell, RefCell};
use std::iter::repeat_n;

use super::faults::Fault;
use super::faulty_carry;
use super::faulty_cut;
use super::faulty_feed::FaultyFeed;
use super::faulty_near;
use super::faulty_sheet::FaultySheet;
use super::faulty_store::FaultyStore;
use crate::calls::{Answer, Calls, FINDING_BYTES, ITEM_BYTES, POLICY_BYTES, TIP_BYTES};
use crate::reference::calls::LONGEST_TEXT;
use crate::reference::characters::LAST_TAG;
use crate::reference::items::{Item, Role, items};
use crate::reference::policy::{place, version};

/// Calls with a planted fault.
pub struct Faulty<'a> {
    calls: &'a dyn Calls,
    fault: Fault,
    has_mended: Cell<bool>,
    last_mended: RefCell<Vec<u8>>,
    feed: FaultyFeed<'a>,
    sheet: FaultySheet<'a>,
    store: FaultyStore<'a>,
}

impl<'a> Faulty<'a> {
    /// Plants a fault.
    #[must_use]
    pub fn new(calls: &'a dyn Calls, fault: Fault) -> Self {
        Self {
            calls,
            fault,
            has_mended: Cell::new(false),
            last_mended: RefCell::new(Vec::new()),
            feed: FaultyFeed::new(calls, fault),
            sheet: FaultySheet::new(calls, fault),
            store: FaultyStore::new(calls, fault),
        }
    }

    /// A call that takes a text, with the faults that can be in any such call.
    fn with_text(
        &self,
        text: &[u8],
        policy: &[u8],
        out: &mut [u8],
        call: impl Fn(&[u8], &[u8], &mut [u8]) -> u64,
    ) -> u64 {
        let (text, policy) = match self.inputs(text, policy) {
            Ok(inputs) => inputs,
            Err(refusal) => return refusal.word(),
        };
        if self.fault == Fault::WritesNothing {
            return call(text, &policy, &mut out.to_vec());
        }
        let mut answer = Answer::of_word(call(text, &policy, out));
        match (self.fault, answer.number) {
            (Fault::TextBeforePolicy, 2) => {
                let tested = Answer::of_word(self.calls.scan(text, &mut []));
                if tested.number == 3 {
                    answer = tested;
                }
            }
            (Fault::VersionAfterBits, 15) => {
                let policy = with_version(&policy);
                answer.number = match Answer::of_word(self.calls.format(&[], &policy, &mut [])) {
                    Answer { number: 2, .. } => 2,
                    _ => 15,
                };
            }
            (Fault::VersionBeforeLength, 2) if with_version(&policy) != policy => {
                answer.number = 15;
            }
            (Fault::WantedLength, 8) | (Fault::WantedPlaces, 7) | (Fault::Beginning, 3) => {
                answer.value += 1;
            }
            (Fault::RefusalWrites, 1..=8) => flip(out, 0),
            _ => {}
        }
        answer.word()
    }

    /// The text and the policy that the call is made with instead, or a refusal.
    fn inputs<'t>(&self, text: &'t [u8], policy: &[u8]) -> Result<(&'t [u8], Vec<u8>), Answer> {
        let mut policy = policy.to_vec();
        match self.fault {
            Fault::RefusesAll => return Err(Answer::new(1, 0)),
            Fault::LimitTooLow if text.len() == LONGEST_TEXT => return Err(Answer::new(1, 0)),
            Fault::LimitTooHigh if text.len() == LONGEST_TEXT + 1 => {
                return Ok((&text[..LONGEST_TEXT], policy));
            }
            Fault::KeycapRule if policy.len() == POLICY_BYTES => {
                for set in [0, 2] {
                    let [from, to] = [set, set + 1].map(|set| place(set, 0).0);
                    policy.copy_within(from..to, to);
                }
            }
            // Of a set's 48 bytes the last four hold two entries.
            Fault::UnusedBit if policy.len() == POLICY_BYTES => {
                policy[place(0, 0).0..].chunks_mut(48).for_each(|set| {
                    if let [.., a, b, c, d] = set {
                        (*a, *b, *c, *d) = (*a & 3, 0, 0, 0);
                    }
                });
            }
            Fault::AnyVersion => policy = with_version(&policy),
            _ => {}
        }
        Ok((text, policy))
    }

    /// What a mending answers instead.
    fn mend_answer(&self, answer: Answer, decisions: &[u8], out: &[u8]) -> Answer {
        match (self.fault, answer.number) {
            (Fault::BytesBeforeNumber, 5) => {
                let first = decisions.iter().position(|&byte| byte > 1);
                first.map_or(answer, |first| Answer::new(6, first as u64))
            }
            (Fault::RoomBeforeOffset, 4) if out.is_empty() => Answer::new(8, 1),
            _ => answer,
        }
    }

    /// What a mending that would not be refused does instead, if it does.
    fn mend_instead(&self, text: &[u8], policy: &[u8], out: &mut [u8]) -> Option<Answer> {
        let no_finding = Answer::new(4, 0);
        match self.fault {
            Fault::MendsNothing => Some(no_finding),
            Fault::ForgetsFindings if *self.last_mended.borrow() == text => Some(no_finding),
            Fault::MendsAllAtOnce if self.has_mended.replace(true) => {
                let length = text.len() as u64;
                let Some(front) = out.get_mut(..text.len()) else {
                    return Some(Answer::new(8, length));
                };
                front.copy_from_slice(text);
                Some(Answer::new(Answer::DONE, length))
            }
            Fault::MendsAllAtOnce => Some(Answer::of_word(self.calls.format(text, policy, out))),
            _ => None,
        }
    }

    /// The answer of the faulty repair, where the sound one was done.
    fn repair_answer(&self, length: u64, number: u64) -> Answer {
        match self.fault {
            Fault::WholeUnwritten if number == 0 => Answer::NOTHING,
            Fault::LimitOnRepaired if length > LONGEST_TEXT as u64 => Answer::new(1, 0),
            Fault::ReplacementNumber => two_values(length, number + 1),
            _ => two_values(length, number),
        }
    }

    /// Scans, and does not tell the last item.
    fn scan_but_one(&self, text: &[u8], table: &mut [u8]) -> Answer {
        let mut whole = table.to_vec();
        let mut answer = Answer::of_word(self.calls.scan(text, &mut whole));
        if answer.number == Answer::DONE && answer.value > 0 {
            answer.value -= 1;
            let length = answer.value as usize * ITEM_BYTES;
            table[..length].copy_from_slice(&whole[..length]);
        }
        answer
    }

    /// Changes the byte after the result, if that is the fault.
    fn spoil_after(&self, answer: Answer, place: usize, out: &mut [u8]) {
        if self.fault == Fault::ByteAfter && answer.number == Answer::DONE {
            flip(out, answer.value as usize * place);
        }
    }
}

/// The bytes of a policy with the version of the tables at their front.
fn with_version(policy: &[u8]) -> Vec<u8> {
    let mut policy = policy.to_vec();
    let length = policy.len().min(8);
    policy[..length].copy_from_slice(&version().to_le_bytes()[..length]);
    policy
}

/// Whether E007F is the last tag of every tag modification.
fn ends_in_last_tags(item: &Item) -> bool {
    let runs = item.parts.chunk_by(|a, b| a.role == b.role);
    runs.filter(|run| run[0].role == Role::Tag)
        .all(|run| run[run.len() - 1].character == LAST_TAG)
}

/// The answer of a call that has two values.
const fn two_values(first: u64, second: u64) -> Answer {
    Answer::new(Answer::DONE, first + (second << 28))
}

/// The text with the bad places that a fault makes of its own, each a single byte.
fn with_other_places(text: &[u8], fault: Fault) -> Vec<u8> {
    let mut out = Vec::with_capacity(text.len());
    let mut is_after_bad = false;
    let mut chunks = text.utf8_chunks().peekable();
    while let Some(chunk) = chunks.next() {
        let (valid, bad) = (chunk.valid().as_bytes(), chunk.invalid().len());
        let takes_next = fault == Fault::SwallowsNextByte
            && is_after_bad
            && valid.first().is_some_and(u8::is_ascii);
        out.extend(&valid[usize::from(takes_next)..]);
        let places = match fault {
            Fault::ReplacesEachByte => bad,
            Fault::JoinsBadPlaces if is_after_bad && valid.is_empty() => 0,
            Fault::LosesCutEnd if chunks.peek().is_none() => 0,
            _ => bad.min(1),
        };
        out.extend(repeat_n(0xFF, places));
        is_after_bad = bad > 0;
    }
    out
}

/// The text with other characters for some, if it is well-formed.
pub fn exchanged(text: &[u8], is_taken: impl Fn(char) -> bool, by: &str) -> Vec<u8> {
    match str::from_utf8(text) {
        Ok(text) => text.replace(is_taken, by).into_bytes(),
        Err(_) => text.to_vec(),
    }
}

/// Changes a byte, if it is there.
pub fn flip(bytes: &mut [u8], place: usize) {
    if let Some(byte) = bytes.get_mut(place) {
        *byte ^= 1;
    }
}

impl Calls for Faulty<'_> {
    fn format(&self, text: &[u8], policy: &[u8], out: &mut [u8]) -> u64 {
        if self.fault == Fault::NeverChanges {
            // Without room a change is refused, or there is nothing to write.
            let answer = Answer::of_word(self.calls.format(text, policy, &mut []));
            let is_taken = !answer.is_refusal() || answer.number == 8;
            return if is_taken { Answer::NOTHING } else { answer }.word();
        }
        let word = self.with_text(text, policy, out, |text, policy, out| {
            self.calls.format(text, policy, out)
        });
        let answer = Answer::of_word(word);
        self.spoil_after(answer, 1, out);
        match (self.fault, answer.number) {
            (Fault::UnchangedWrites, 255) => {
                let length = text.len().min(out.len());
                out[..length].copy_from_slice(&text[..length]);
            }
            (Fault::UnchangedTooShort, 255) if out.len() < text.len() => {
                return Answer::new(8, text.len() as u64).word();
            }
            _ => {}
        }
        word
    }

    fn list(&self, text: &[u8], policy: &[u8], table: &mut [u8]) -> u64 {
        let word = self.with_text(text, policy, table, |text, policy, table| {
            self.calls.list(text, policy, table)
        });
        let answer = Answer::of_word(word);
        self.spoil_after(answer, FINDING_BYTES, table);
        if answer.number == Answer::DONE && answer.value > 0 {
            match self.fault {
                Fault::FindingSpan => flip(table, 8),
                Fault::InventedCount => flip(table, 16),
                Fault::FindingUnits => flip(table, 104),
                _ => {}
            }
        }
        word
    }

    fn mend(
        &self,
        text: &[u8],
        policy: &[u8],
        offset: u64,
        decisions: &[u8],
        out: &mut [u8],
    ) -> u64 {
        // Without room a mending is refused, or there is nothing to write.
        let tried = self.calls.mend(text, policy, offset, decisions, &mut []);
        if matches!(Answer::of_word(tried).number, Answer::DONE | 8)
            && let Some(answer) = self.mend_instead(text, policy, out)
        {
            return answer.word();
        }
        let word = self.with_text(text, policy, out, |text, policy, out| {
            self.calls.mend(text, policy, offset, decisions, out)
        });
        let answer = self.mend_answer(Answer::of_word(word), decisions, out);
        self.spoil_after(answer, 1, out);
        if self.fault == Fault::ForgetsFindings && answer.number == Answer::DONE {
            *self.last_mended.borrow_mut() = out[..answer.value as usize].to_vec();
        }
        answer.word()
    }

    fn scan(&self, text: &[u8], table: &mut [u8]) -> u64 {
        if self.fault == Fault::EndsEarly {
            return self.scan_but_one(text, table).word();
        }
        let word = self.with_text(text, &[], table, |text, _, table| {
            self.calls.scan(text, table)
        });
        let answer = Answer::of_word(word);
        self.spoil_after(answer, ITEM_BYTES, table);
        if answer.number == Answer::DONE && self.fault != Fault::WritesNothing {
            let rows = &mut table[..answer.value as usize * ITEM_BYTES];
            match self.fault {
                Fault::ItemSpan => flip(rows, 8),
                Fault::ItemCharacters => flip(rows, 40),
                Fault::TagReport => rows.chunks_mut(ITEM_BYTES).for_each(|row| row[24] = 1),
                Fault::LastTag => rows
                    .chunks_mut(ITEM_BYTES)
                    .zip(items(text))
                    .for_each(|(row, item)| row[24] = ends_in_last_tags(&item).into()),
                _ => {}
            }
        }
        word
    }

    fn repair(&self, text: &[u8], out: &mut [u8]) -> u64 {
        let word = self.with_text(text, &[], out, |text, _, out| match self.fault {
            Fault::ReplacesEachByte
            | Fault::JoinsBadPlaces
            | Fault::SwallowsNextByte
            | Fault::LosesCutEnd => self.calls.repair(&with_other_places(text, self.fault), out),
            Fault::WantsThreeTimes if out.len() < 3 * text.len() => {
                Answer::new(8, 3 * text.len() as u64).word()
            }
            _ => self.calls.repair(text, out),
        });
        let answer = Answer::of_word(word);
        if answer.number != Answer::DONE {
            return word;
        }
        let (length, number) = (answer.value & 0xFFF_FFFF, answer.value >> 28);
        self.spoil_after(Answer::new(Answer::DONE, length), 1, out);
        self.repair_answer(length, number).word()
    }

    fn tips(&self, text: &[u8], policy: &[u8], table: &mut [u8]) -> u64 {
        let word = self.with_text(text, policy, table, |text, policy, table| {
            match self.fault {
                Fault::TipKeycapAsOrdinary => {
                    let text = exchanged(text, |character| character == '\u{20E3}', "\u{4E2D}");
                    self.calls.tips(&text, policy, table)
                }
                Fault::TipBeforeTag => {
                    let is_tag = |character| ('\u{E0020}'..='\u{E007F}').contains(&character);
                    let text = exchanged(text, is_tag, "\u{20000}");
                    self.calls.tips(&text, policy, table)
                }
                _ => self.calls.tips(text, policy, table),
            }
        });
        let mut answer = Answer::of_word(word);
        self.spoil_after(answer, TIP_BYTES, table);
        match self.fault {
            Fault::TipOrder if answer.number == Answer::DONE && answer.value > 1 => {
                let (first, second) = table[..2 * TIP_BYTES].split_at_mut(TIP_BYTES);
                first.swap_with_slice(second);
            }
            Fault::TipMissing if answer.number == Answer::DONE && answer.value > 0 => {
                answer.value -= 1;
            }
            _ => {}
        }
        answer.word()
    }

    fn around(
        &self,
        text: &[u8],
        policy: &[u8],
        from: u64,
        to: u64,
        inside: &mut [u8],
        sharing: &mut [u8],
    ) -> u64 {
        let tables = [inside, sharing];
        faulty_near::around(self.calls, self.fault, (text, policy), (from, to), tables)
    }

    fn nearest(&self, text: &[u8], policy: &[u8], offset: u64, row: &mut [u8]) -> u64 {
        faulty_near::nearest(self.calls, self.fault, (text, policy), offset, row)
    }

    fn cut(&self, bytes: &[u8], offset: u64) -> u64 {
        faulty_cut::cut(self.calls, self.fault, bytes, offset)
    }

    fn feed_begin(&self, policy: &[u8], feed: &mut [u8]) -> u64 {
        self.feed.begin(policy, feed).word()
    }

    fn feed_piece(&self, feed: &mut [u8], piece: &[u8], out: &mut [u8]) -> u64 {
        self.feed.piece(feed, piece, out).word()
    }

    fn feed_end(&self, feed: &mut [u8], out: &mut [u8]) -> u64 {
        self.feed.end(feed, out).word()
    }

    fn feed_policy(&self, feed: &mut [u8], policy: &[u8]) -> u64 {
        self.feed.change(feed, policy).word()
    }

    fn feed_totals(&self, feed: &[u8], totals: &mut [u8]) -> u64 {
        self.feed.totals(feed, totals).word()
    }

    fn read_sheet(&self, sheet: &[u8], out: &mut [u8]) -> u64 {
        self.sheet.read(sheet, out).word()
    }

    fn write_sheet(&self, policy: &[u8], out: &mut [u8]) -> u64 {
        self.sheet.write(policy, out).word()
    }

    fn carry_policy(&self, entries: &[u8], policy: &[u8], out: &mut [u8]) -> u64 {
        faulty_carry::carry(self.calls, self.fault, entries, policy, out).word()
    }

    fn store_begin(&self, capacity: u64, reserves: &[u8], store: &mut [u8]) -> u64 {
        self.store.begin(capacity, reserves, store).word()
    }

    fn store_file(
        &self,
        store: &mut [u8],
        text: &[u8],
        policy: &[u8],
        client: u64,
        number: u64,
        out: &mut [u8],
    ) -> u64 {
        let place = [client, number];
        self.store.file(store, text, policy, place, out).word()
    }

    fn store_release(&self, store: &mut [u8], client: u64, number: u64) -> u64 {
        self.store.release(store, client, number).word()
    }

    fn store_used(&self, store: &[u8], client: u64) -> u64 {
        self.store.used(store, client).word()
    }

    fn default_policy(&self, out: &mut [u8]) -> u64 {
        let word = self.calls.default_policy(out);
        if self.fault == Fault::DefaultPolicy && Answer::of_word(word).number == Answer::DONE {
            flip(out, 40);
        }
        word
    }

    fn variation_entry(&self, index: u64) -> u64 {
        let word = self.calls.variation_entry(index);
        if self.fault == Fault::FurtherEntry && word == Answer::NOTHING.word() {
            return self.calls.variation_entry(index - 1);
        }
        word
    }

    fn version(&self) -> u64 {
        let word = self.calls.version();
        word + u64::from(self.fault == Fault::NextVersion)
    }
}
