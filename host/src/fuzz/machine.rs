//! The state that the calls of an input share, and the calls on a text.

use std::sync::LazyLock;

use super::feeds::FeedSlot;
use super::input::Input;
use super::stores::StoreSlot;
use super::tokens;
use crate::boundary::placed::{Placed, Spot};
use crate::calls::{Answer, Calls, FINDING_BYTES, ITEM_BYTES, NEAREST_BYTES, TIP_BYTES};
use crate::comparison::lent::{Difference, hexadecimal, lend_between, lend_two, same};
use crate::comparison::{feed_case, store_case};
use crate::reference::calls::{self as reading, Draft, LONGEST_TEXT};
use crate::reference::items::items;
use crate::reference::policy::default_policy;
use crate::reference::{cut, near, tips};

/// The most steps of an input.
const MOST_STEPS: usize = 100;
/// The most bytes of a text, but for the one that is longer than a text may be.
const MOST_TEXT: usize = 1024;
/// The most bytes of a text whose memberships are listed. The reading formats such a text for every membership.
const MOST_TIPS: usize = 160;

/// A text that is longer than a text may be.
static TOO_LONG: LazyLock<Vec<u8>> = LazyLock::new(|| vec![b'a'; LONGEST_TEXT + 1]);

/// A step of an input.
type Step<'a> = fn(&mut Machine<'a>) -> Result<(), Difference>;

/// The names of the C functions that are called, but for `tilghorz_`.
#[must_use]
pub fn names() -> [&'static str; 24] {
    Machine::CALLS.map(|(name, _)| name)
}

/// Makes the calls of an input, and gives how many there were, or the first difference.
pub fn run(calls: &dyn Calls, input: &[u8]) -> Result<u64, Difference> {
    let mut machine = Machine::new(calls, input)?;
    for step in 0..MOST_STEPS {
        if machine.input.is_empty() {
            break;
        }
        machine.step().map_err(|difference| Difference {
            call: format!("step {step}, {}", difference.call),
            ..difference
        })?;
    }
    Ok(machine.made)
}

/// What the calls of an input share.
pub struct Machine<'a> {
    pub(super) calls: &'a dyn Calls,
    pub(super) input: Input<'a>,
    text: Vec<u8>,
    /// Whether the text is the one that is longer than a text may be.
    is_too_long: bool,
    pub(super) policy: Vec<u8>,
    /// What the last call wrote, that wrote something.
    pub(super) last: Vec<u8>,
    pub(super) feed_bytes: usize,
    pub(super) feeds: [FeedSlot; 3],
    pub(super) store_bytes: usize,
    pub(super) stores: [StoreSlot; 2],
    pub(super) made: u64,
}

impl<'a> Machine<'a> {
    /// The steps that make a call, each with the name of its C function but for `tilghorz_`.
    const CALLS: [(&'static str, Step<'a>); 24] = [
        ("format", Self::format),
        ("list", Self::list),
        ("mend", Self::mend),
        ("scan", Self::scan),
        ("repair", Self::repair),
        ("around", Self::around),
        ("nearest", Self::nearest),
        ("cut", Self::cut),
        ("feed_begin", Self::feed_begin),
        ("feed_piece", Self::feed_piece),
        ("feed_end", Self::feed_end),
        ("feed_policy", Self::feed_policy),
        ("feed_totals", Self::feed_totals),
        ("read_sheet", Self::read_sheet),
        ("write_sheet", Self::write_sheet),
        ("carry_policy", Self::carry_policy),
        ("tips", Self::tips),
        ("store_begin", Self::store_begin),
        ("store_file", Self::store_file),
        ("store_release", Self::store_release),
        ("store_used", Self::store_used),
        ("default_policy", Self::default_policy),
        ("variation_entry", Self::variation_entry),
        ("version", Self::version),
    ];

    /// The steps that change what the next calls are handed.
    const CHANGES: [Step<'a>; 24] = [
        Self::text_of_tokens,
        Self::add_tokens,
        Self::text_of_bytes,
        Self::add_bytes,
        Self::add_run,
        Self::text_of_sheet,
        Self::text_of_last,
        Self::change_text,
        Self::cut_text,
        Self::longest_text,
        Self::policy_of_default,
        Self::policy_of_last,
        Self::flip_membership,
        Self::flip_bit,
        Self::full_sets,
        Self::other_version,
        Self::other_length,
        Self::policy_of_bytes,
        Self::copy_feed,
        Self::spoil_feed,
        Self::feed_of_bytes,
        Self::copy_store,
        Self::spoil_store,
        Self::store_of_bytes,
    ];

    /// The state before the first step: an empty text, the default policy, no feed and no store.
    fn new(calls: &'a dyn Calls, input: &'a [u8]) -> Result<Self, Difference> {
        Ok(Self {
            calls,
            input: Input::new(input),
            text: Vec::new(),
            is_too_long: false,
            policy: default_policy().to_vec(),
            last: Vec::new(),
            feed_bytes: feed_case::feed_bytes(calls)?,
            feeds: Default::default(),
            store_bytes: store_case::store_bytes(calls)?,
            stores: Default::default(),
            made: 0,
        })
    }

    /// Makes the next step.
    fn step(&mut self) -> Result<(), Difference> {
        let number = self.input.below(Self::CALLS.len() + Self::CHANGES.len());
        match Self::CALLS.get(number) {
            Some((_, call)) => call(self),
            None => Self::CHANGES[number - Self::CALLS.len()](self),
        }
    }

    /// The text, at a spot that the input says.
    pub(super) fn placed_text(&mut self) -> Lent {
        let spot = self.input.spot();
        match self.is_too_long {
            true => Lent::TooLong,
            false => Lent::new(&self.text, spot),
        }
    }

    /// The policy, at a spot that the input says.
    pub(super) fn placed_policy(&mut self) -> Lent {
        let spot = self.input.spot();
        Lent::new(&self.policy, spot)
    }

    /// Makes a call that writes to one buffer, and compares the answer, all bytes of the buffer and those around it, and
    /// that the inputs stay.
    pub(super) fn compare(
        &mut self,
        name: &str,
        inputs: &[&Lent],
        draft: &Draft,
        place: usize,
        call: impl FnOnce(&dyn Calls, &mut [u8]) -> u64,
    ) -> Result<(), Difference> {
        let room = self.input.room(draft.wanted(), place);
        let margins = self.input.margins();
        let name = || describe(name, inputs);
        lend_between(margins, name, draft, room, |out| call(self.calls, out))?;
        stay(name, inputs)?;
        self.made += 1;
        let (_, written) = draft.with_room(room);
        if !written.is_empty() {
            self.last = written.to_vec();
        }
        Ok(())
    }

    /// Compares the answer of a call that writes to no buffer.
    pub(super) fn compare_answer(
        &mut self,
        name: impl Fn() -> String,
        expected: Answer,
        word: u64,
    ) -> Result<(), Difference> {
        self.made += 1;
        let found = Answer::of_word(word);
        same(name, &expected, &found, Answer::to_string)
    }

    /// `tilghorz_format`.
    fn format(&mut self) -> Result<(), Difference> {
        let (text, policy) = (self.placed_text(), self.placed_policy());
        let draft = reading::format(text.bytes(), policy.bytes());
        self.compare("format", &[&text, &policy], &draft, 1, |calls, out| {
            calls.format(text.bytes(), policy.bytes(), out)
        })
    }

    /// `tilghorz_list`.
    fn list(&mut self) -> Result<(), Difference> {
        let (text, policy) = (self.placed_text(), self.placed_policy());
        let draft = reading::list(text.bytes(), policy.bytes());
        let inputs = [&text, &policy];
        self.compare("list", &inputs, &draft, FINDING_BYTES, |calls, table| {
            calls.list(text.bytes(), policy.bytes(), table)
        })
    }

    /// `tilghorz_mend`, most often at an item, and with as many decisions as it needs.
    fn mend(&mut self) -> Result<(), Difference> {
        let (text, policy) = (self.placed_text(), self.placed_policy());
        let offset = self.offset();
        let needed = match reading::mend(text.bytes(), policy.bytes(), offset, &[]) {
            Draft::Refused(Answer { number: 5, value }) => value as usize,
            _ => 0,
        };
        let bits = self.input.byte();
        let decisions = match bits {
            0xF0.. => self.input.bytes().to_vec(),
            0xE0..0xF0 => vec![0; needed + 1],
            0xD0..0xE0 => vec![1; needed.saturating_sub(1)],
            _ => (0..needed).map(|place| bits >> (place % 7) & 1).collect(),
        };
        let spot = self.input.spot();
        let decisions = Lent::new(&decisions, spot);
        let draft = reading::mend(text.bytes(), policy.bytes(), offset, decisions.bytes());
        let inputs = [&text, &policy, &decisions];
        let name = format!("mend at {offset}");
        self.compare(&name, &inputs, &draft, 1, |calls, out| {
            calls.mend(text.bytes(), policy.bytes(), offset, decisions.bytes(), out)
        })
    }

    /// `tilghorz_scan`.
    fn scan(&mut self) -> Result<(), Difference> {
        let text = self.placed_text();
        let draft = reading::scan(text.bytes());
        self.compare("scan", &[&text], &draft, ITEM_BYTES, |calls, table| {
            calls.scan(text.bytes(), table)
        })
    }

    /// `tilghorz_repair`.
    fn repair(&mut self) -> Result<(), Difference> {
        let text = self.placed_text();
        let draft = reading::repair(text.bytes());
        self.compare("repair", &[&text], &draft, 1, |calls, out| {
            calls.repair(text.bytes(), out)
        })
    }

    /// `tilghorz_tips`.
    fn tips(&mut self) -> Result<(), Difference> {
        if self.text.len() > MOST_TIPS && !self.is_too_long {
            self.text.truncate(MOST_TIPS);
        }
        let (text, policy) = (self.placed_text(), self.placed_policy());
        let draft = tips::list(text.bytes(), policy.bytes());
        let inputs = [&text, &policy];
        self.compare("tips", &inputs, &draft, TIP_BYTES, |calls, table| {
            calls.tips(text.bytes(), policy.bytes(), table)
        })
    }

    /// `tilghorz_around`.
    fn around(&mut self) -> Result<(), Difference> {
        let (text, policy) = (self.placed_text(), self.placed_policy());
        let (from, to) = (self.offset(), self.offset());
        let drafts = near::around(text.bytes(), policy.bytes(), from, to);
        let rooms = drafts
            .wanted()
            .map(|wanted| self.input.room(wanted, FINDING_BYTES));
        let margins = [self.input.margins(), self.input.margins()];
        let name = || describe(&format!("around {from} to {to}"), &[&text, &policy]);
        lend_two(margins, name, &drafts, rooms, |inside, sharing| {
            let (text, policy) = (text.bytes(), policy.bytes());
            self.calls.around(text, policy, from, to, inside, sharing)
        })?;
        self.made += 1;
        stay(name, &[&text, &policy])
    }

    /// `tilghorz_nearest`.
    fn nearest(&mut self) -> Result<(), Difference> {
        let (text, policy) = (self.placed_text(), self.placed_policy());
        let offset = self.offset();
        let draft = near::nearest(text.bytes(), policy.bytes(), offset);
        let name = format!("nearest to {offset}");
        let inputs = [&text, &policy];
        self.compare(&name, &inputs, &draft, NEAREST_BYTES, |calls, row| {
            calls.nearest(text.bytes(), policy.bytes(), offset, row)
        })
    }

    /// `tilghorz_cut`. It takes bytes of any length, and the reading looks at each offset, so the longest text is left out.
    fn cut(&mut self) -> Result<(), Difference> {
        let spot = self.input.spot();
        let text = Lent::new(&self.text, spot);
        let offset = self.offset();
        let expected = cut::cut(text.bytes(), offset);
        let word = self.calls.cut(text.bytes(), offset);
        let name = || describe(&format!("cut at {offset}"), &[&text]);
        self.compare_answer(name, expected, word)?;
        stay(name, &[&text])
    }

    /// An offset: where an item of the text begins, near the end of the text, or any number.
    fn offset(&mut self) -> u64 {
        let length = self.text.len() as u64;
        match self.input.byte() {
            byte @ 0..0x80 => {
                let starts: Vec<usize> = items_of(&self.text);
                let start = starts.get(usize::from(byte) % starts.len().max(1));
                start.map_or(0, |start| *start as u64)
            }
            byte @ 0x80..0xC0 => u64::from(byte - 0x80),
            byte @ 0xC0..0xE0 => (length + 2).saturating_sub((byte - 0xC0).into()),
            _ => self.input.number(),
        }
    }

    /// The text is then this one.
    fn set_text(&mut self, text: Vec<u8>) {
        self.is_too_long = false;
        self.text = text;
        self.text.truncate(MOST_TEXT);
    }

    /// A text of tokens.
    fn text_of_tokens(&mut self) -> Result<(), Difference> {
        self.text.clear();
        self.add_tokens()
    }

    /// Adds tokens to the text.
    fn add_tokens(&mut self) -> Result<(), Difference> {
        let more = self.input.bytes().iter();
        let more: Vec<u8> = more
            .flat_map(|byte| tokens::of_text(*byte))
            .copied()
            .collect();
        self.set_text([&self.text, &more[..]].concat());
        Ok(())
    }

    /// A text of bytes.
    fn text_of_bytes(&mut self) -> Result<(), Difference> {
        self.text.clear();
        self.add_bytes()
    }

    /// Adds bytes to the text.
    fn add_bytes(&mut self) -> Result<(), Difference> {
        let more = self.input.bytes();
        self.set_text([&self.text, more].concat());
        Ok(())
    }

    /// Adds a token to the text, many times.
    fn add_run(&mut self) -> Result<(), Difference> {
        let (token, times) = (self.input.byte(), self.input.byte());
        let run = tokens::of_text(token).repeat(times.into());
        self.set_text([&self.text, &run[..]].concat());
        Ok(())
    }

    /// Adds tokens of a sheet to the text, or begins a new one with them.
    fn text_of_sheet(&mut self) -> Result<(), Difference> {
        if self.input.byte().is_multiple_of(2) {
            self.text.clear();
        }
        let more = self.input.bytes().iter();
        let more: Vec<u8> = more
            .flat_map(|byte| tokens::of_sheet(*byte))
            .copied()
            .collect();
        self.set_text([&self.text, &more[..]].concat());
        Ok(())
    }

    /// The text is what a call wrote.
    fn text_of_last(&mut self) -> Result<(), Difference> {
        self.set_text(self.last.clone());
        Ok(())
    }

    /// Changes a byte of the text.
    fn change_text(&mut self) -> Result<(), Difference> {
        let (place, byte) = (self.input.pair(), self.input.byte());
        if let Some(place) = place.checked_rem(self.text.len()) {
            self.text[place] = byte;
        }
        Ok(())
    }

    /// Takes bytes away from the front and from the end of the text.
    fn cut_text(&mut self) -> Result<(), Difference> {
        let (front, end) = (self.input.byte().into(), self.input.byte().into());
        let kept = self.text.get(front..self.text.len().saturating_sub(end));
        self.text = kept.unwrap_or_default().to_vec();
        Ok(())
    }

    /// The text is then longer than a text may be, until it is another.
    fn longest_text(&mut self) -> Result<(), Difference> {
        self.is_too_long = true;
        Ok(())
    }

    /// The text, or some bytes if it is too long.
    pub(super) fn text_bytes(&self) -> &[u8] {
        &self.text
    }

    /// Whether the text is longer than a text may be.
    pub(super) const fn has_long_text(&self) -> bool {
        self.is_too_long
    }
}

/// Where the items of a text begin; none if it is not well-formed.
fn items_of(text: &[u8]) -> Vec<usize> {
    match str::from_utf8(text) {
        Err(_) => Vec::new(),
        Ok(text) => items(text.as_bytes()).map(|item| item.start).collect(),
    }
}

/// Bytes that are lent to a call, which must not write them.
pub enum Lent {
    /// Bytes between others.
    Placed {
        /// The bytes in memory.
        placed: Placed,
        /// The same bytes.
        made: Vec<u8>,
        /// Where they are.
        spot: Spot,
    },
    /// The text that is longer than a text may be.
    TooLong,
}

impl Lent {
    /// Lends bytes at a spot.
    #[must_use]
    pub fn new(bytes: &[u8], spot: Spot) -> Self {
        Self::Placed {
            placed: Placed::new(bytes, spot),
            made: bytes.to_vec(),
            spot,
        }
    }

    /// The bytes.
    #[must_use]
    pub fn bytes(&self) -> &[u8] {
        match self {
            Self::Placed { placed, .. } => placed.bytes(),
            Self::TooLong => &TOO_LONG,
        }
    }

    /// Whether all is as it was made.
    fn is_as_made(&self) -> bool {
        match self {
            Self::Placed { placed, made, spot } => placed.is_as_made(made, *spot),
            Self::TooLong => true,
        }
    }
}

/// A call with its inputs.
pub(super) fn describe(name: &str, inputs: &[&Lent]) -> String {
    let inputs = inputs.iter().map(|input| hexadecimal(input.bytes()));
    let inputs: Vec<String> = inputs.collect();
    format!("{name}, of {}", inputs.join("; "))
}

/// The inputs of a call must stay as they were.
pub(super) fn stay(name: impl Fn() -> String, inputs: &[&Lent]) -> Result<(), Difference> {
    let are_as_made = inputs.iter().all(|input| input.is_as_made());
    let name = || format!("{}: the inputs stay as they are", name());
    same(name, &true, &are_as_made, bool::to_string)
}
