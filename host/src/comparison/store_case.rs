//! A list of calls on a store beside the reading of document 02, (x).

use std::fmt::{self, Display, Formatter};

use super::lent::{Difference, MARGIN, hexadecimal, lend_between, lend_feed, pattern, same};
use super::policies::Policy;
use crate::calls::{Answer, Calls};
use crate::reference::calls::{self, Draft};
use crate::reference::store::{self, CLIENTS, Store};

/// The most bytes of a store.
const MOST_BYTES: u64 = 1 << 16;

/// The margins of a store and of an output.
const MARGINS: [[usize; 2]; 2] = [[MARGIN; 2]; 2];

/// How a store begins.
#[derive(Debug, Clone, PartialEq, Eq)]
pub struct Begin {
    /// The capacity.
    pub capacity: u64,
    /// The bytes that are handed over as reserves.
    pub reserves: Vec<u8>,
}

impl Begin {
    /// A store with these reserves.
    #[must_use]
    pub fn new(capacity: u64, reserves: &[u64]) -> Self {
        Self {
            capacity,
            reserves: reserves.iter().flat_map(|of| of.to_le_bytes()).collect(),
        }
    }
}

impl Display for Begin {
    fn fmt(&self, out: &mut Formatter<'_>) -> fmt::Result {
        let reserves = hexadecimal(&self.reserves);
        write!(out, "capacity {}, reserves of {reserves}", self.capacity)
    }
}

/// One call of a list.
#[derive(Debug, Clone, PartialEq, Eq)]
pub enum Step {
    /// `tilghorz_store_file`.
    File {
        /// The text.
        text: Vec<u8>,
        /// Whether the policy is handed over whole; otherwise it is no policy.
        has_policy: bool,
        /// The client and the number.
        place: [u64; 2],
        /// The output's length.
        room: usize,
    },
    /// `tilghorz_store_release`.
    Release {
        /// The client and the number.
        place: [u64; 2],
    },
}

impl Step {
    /// A filing with four times the text as room.
    #[must_use]
    pub fn file(text: &[u8], client: u64, number: u64) -> Self {
        Self::File {
            text: text.to_vec(),
            has_policy: true,
            place: [client, number],
            room: 4 * text.len(),
        }
    }

    /// A release.
    #[must_use]
    pub const fn release(client: u64, number: u64) -> Self {
        Self::Release {
            place: [client, number],
        }
    }
}

impl Display for Step {
    fn fmt(&self, out: &mut Formatter<'_>) -> fmt::Result {
        match self {
            Self::File {
                text,
                has_policy,
                place: [client, number],
                room,
            } => {
                let text = hexadecimal(text);
                let policy = if *has_policy { "" } else { ", no policy" };
                write!(
                    out,
                    "file {text}{policy}, client {client}, number {number}, room {room}"
                )
            }
            Self::Release {
                place: [client, number],
            } => write!(out, "release, client {client}, number {number}"),
        }
    }
}

/// The bytes of a store.
pub fn store_bytes(calls: &dyn Calls) -> Result<usize, Difference> {
    let answer = Answer::of_word(calls.store_begin(0, &[], &mut []));
    if answer.number == 8 && (1..=MOST_BYTES).contains(&answer.value) {
        return Ok(answer.value as usize);
    }
    Err(Difference {
        call: "store_begin, room 0".to_owned(),
        expected: format!("refused 8, at most {MOST_BYTES}"),
        found: answer.to_string(),
    })
}

/// Begins stores in buffers of several lengths. A short buffer is refused first.
pub fn check_begin(calls: &dyn Calls, begin: &Begin) -> Result<(), Difference> {
    let bytes = store_bytes(calls)?;
    let reading = Store::begin(begin.capacity, &begin.reserves);
    for room in [0, bytes - 1, bytes, bytes + 1, bytes + 100] {
        let expected = match (&reading, room >= bytes) {
            (_, false) => Answer::new(8, bytes as u64),
            (Err(refusal), true) => *refusal,
            (Ok(_), true) => Answer::new(Answer::DONE, bytes as u64),
        };
        begin_in(calls, begin, expected, room)?;
    }
    Ok(())
}

/// Begins a store in a buffer of this length, and gives its bytes.
fn begin_in(
    calls: &dyn Calls,
    begin: &Begin,
    expected: Answer,
    room: usize,
) -> Result<Vec<u8>, Difference> {
    let made = pattern(MARGIN + room + MARGIN);
    let mut memory = made.clone();
    let buffer = &mut memory[MARGIN..MARGIN + room];
    let found = Answer::of_word(calls.store_begin(begin.capacity, &begin.reserves, buffer));
    let name = |what: &str| format!("store_begin, {begin}, room {room}{what}");
    same(|| name(""), &expected, &found, Answer::to_string)?;
    let length = match expected.number {
        Answer::DONE => expected.value as usize,
        _ => 0,
    };
    let store = memory[MARGIN..MARGIN + length].to_vec();
    memory[MARGIN..MARGIN + length].copy_from_slice(&made[MARGIN..MARGIN + length]);
    let is_same = memory == made;
    let name = || name(": all but the store stays");
    same(name, &true, &is_same, bool::to_string)?;
    Ok(store)
}

/// Runs a list of calls on a store begun new. Each answer, each output, and what each client uses after each call must
/// be those of the reading.
pub fn check(
    calls: &dyn Calls,
    policy: &Policy,
    begin: &Begin,
    list: &[Step],
) -> Result<(), Difference> {
    check_begin(calls, begin)?;
    let Ok(reading) = Store::begin(begin.capacity, &begin.reserves) else {
        return Ok(());
    };
    let bytes = store_bytes(calls)?;
    let begun = Answer::new(Answer::DONE, bytes as u64);
    let mut run = Shared {
        calls,
        policy,
        store: begin_in(calls, begin, begun, bytes)?,
        reading,
    };
    run.used(0)?;
    for (number, step) in (1..).zip(list) {
        run.step(number, step)?;
        run.used(number)?;
    }
    Ok(())
}

/// A store and the reading of it.
struct Shared<'a> {
    calls: &'a dyn Calls,
    policy: &'a Policy,
    store: Vec<u8>,
    reading: Store,
}

impl Shared<'_> {
    /// Makes one call.
    fn step(&mut self, number: usize, step: &Step) -> Result<(), Difference> {
        let name = || format!("call {number} of the list");
        match step {
            Step::File {
                text,
                has_policy,
                place,
                room,
            } => {
                let policy = match has_policy {
                    true => &self.policy.bytes[..],
                    false => &self.policy.bytes[1..],
                };
                let format = calls::format(text, policy);
                let (draft, after) =
                    store::draft(Some(&self.reading), &format, text.len(), *place, *room);
                let [client, number] = *place;
                self.store = lend_feed(MARGINS, name, &self.store, &draft, *room, |store, out| {
                    self.calls
                        .store_file(store, text, policy, client, number, out)
                })?;
                self.reading = after.unwrap_or_else(|| self.reading.clone());
            }
            Step::Release {
                place: [client, number],
            } => {
                let released = self.reading.release(*client, *number);
                let expected = match &released {
                    Err(refusal) => *refusal,
                    Ok((given, _)) => Answer::new(Answer::DONE, *given),
                };
                self.store = lend_store(name, &self.store, expected, |store| {
                    self.calls.store_release(store, *client, *number)
                })?;
                if let Ok((_, after)) = released {
                    self.reading = after;
                }
            }
        }
        Ok(())
    }

    /// Compares what each client uses, and asks for clients that there are not.
    fn used(&self, number: usize) -> Result<(), Difference> {
        let clients = (0..=CLIENTS as u64).chain([u64::MAX]);
        for client in clients {
            let expected = match self.reading.used(client) {
                Err(refusal) => refusal,
                Ok(used) => Answer::new(Answer::DONE, used),
            };
            let found = Answer::of_word(self.calls.store_used(&self.store, client));
            let name = || format!("what client {client} uses after call {number}");
            same(name, &expected, &found, Answer::to_string)?;
        }
        Ok(())
    }
}

/// Makes a call that may change a store and writes no text, and compares the answer. A refusal must leave the store as
/// it was. Gives the store after the call.
pub fn lend_store(
    name: impl Fn() -> String,
    store: &[u8],
    expected: Answer,
    call: impl FnOnce(&mut [u8]) -> u64,
) -> Result<Vec<u8>, Difference> {
    let made = [&pattern(MARGIN), store, &pattern(MARGIN)].concat();
    let mut memory = made.clone();
    let place = MARGIN..MARGIN + store.len();
    let found = Answer::of_word(call(&mut memory[place.clone()]));
    same(&name, &expected, &found, Answer::to_string)?;
    let changed = memory[place.clone()].to_vec();
    memory[place].copy_from_slice(store);
    let is_same = memory == made && (!expected.is_refusal() || changed == store);
    let name = || name() + ": all but the store stays, and a refusal changes nothing";
    same(name, &true, &is_same, bool::to_string)?;
    Ok(changed)
}

/// Makes the calls on bytes of other lengths than a store's: formatting's refusals, and then 13. Gives how many calls
/// there were.
pub fn check_lengths(calls: &dyn Calls) -> Result<u64, Difference> {
    let bytes = store_bytes(calls)?;
    let policy = Policy::default_policy().bytes;
    let bad = Answer::new(13, 0);
    let mut made = 0;
    for length in [
        0,
        1,
        7,
        8,
        264,
        bytes - 8,
        bytes - 1,
        bytes + 1,
        bytes + 8,
        2 * bytes,
    ] {
        for state in [vec![0; length], pattern(length)] {
            let name = || format!("a call on {length} bytes, which are no store");
            for (text, room) in [(&b"a"[..], 4), (b"\xE2\x9D\xA4", 5), (b"\xFF", 4), (b"", 0)] {
                let format = calls::format(text, &policy);
                let (draft, _) = store::draft(None, &format, text.len(), [0, 0], room);
                lend_feed(MARGINS, name, &state, &draft, room, |state, out| {
                    calls.store_file(state, text, &policy, 0, 0, out)
                })?;
            }
            lend_store(name, &state, bad, |state| calls.store_release(state, 0, 0))?;
            let used = Answer::of_word(calls.store_used(&state, 0));
            same(name, &bad, &used, Answer::to_string)?;
            made += 6;
        }
    }
    Ok(made)
}

/// Makes calls on bytes of a store's length that are no store: the answer is the program's choice, within the lent
/// buffers, and a refusal writes nothing. Gives how many calls there were.
pub fn check_any(calls: &dyn Calls, state: &[u8]) -> Result<u64, Difference> {
    let policy = Policy::default_policy().bytes;
    let places = [[0, 0], [3, 7], [15, 255], [16, 0], [0, 256]];
    for [client, number] in places {
        for (text, room) in [
            (&b"abc"[..], 12),
            (b"\xE2\x9D\xA4", 6),
            (b"\xE2\x9D\xA4", 5),
        ] {
            let mut outs = pattern(MARGIN + room + MARGIN);
            let out_made = outs.clone();
            let out = &mut outs[MARGIN..MARGIN + room];
            let call =
                |state: &mut [u8]| calls.store_file(state, text, &policy, client, number, out);
            let answer = any(state, &[8, 13, 14, 255], call)?;
            let written = match answer.number {
                Answer::DONE => answer.value as usize,
                _ => 0,
            };
            let written = MARGIN..MARGIN + written;
            outs[written.clone()].copy_from_slice(&out_made[written]);
            let name = || format!("a filing into bytes that are no store, {answer}: the output");
            same(name, &true, &(outs == out_made), bool::to_string)?;
        }
        any(state, &[13], |state| {
            calls.store_release(state, client, number)
        })?;
        let _ = calls.store_used(state, client);
    }
    Ok(5 * places.len() as u64)
}

/// Makes a call on bytes that are no store. Done, or one of these numbers; all around the bytes stays, and a refusal
/// changes nothing.
fn any(
    state: &[u8],
    numbers: &[u8],
    call: impl FnOnce(&mut [u8]) -> u64,
) -> Result<Answer, Difference> {
    let made = [&pattern(MARGIN), state, &pattern(MARGIN)].concat();
    let mut memory = made.clone();
    let place = MARGIN..MARGIN + state.len();
    let answer = Answer::of_word(call(&mut memory[place.clone()]));
    let is_known = answer.number == Answer::DONE || numbers.contains(&answer.number);
    if !answer.is_refusal() {
        memory[place].copy_from_slice(state);
    }
    let name = || format!("a call on bytes that are no store, {answer}");
    same(name, &true, &(is_known && memory == made), bool::to_string)?;
    Ok(answer)
}

/// Begins a store in a buffer at a spot; the bytes of a store are the library's own, so they are taken from a first
/// call.
pub fn begin_between(
    calls: &dyn Calls,
    begin: &Begin,
    reserves: &[u8],
    margins: [usize; 2],
    room: usize,
) -> Result<(), Difference> {
    let mut store = vec![0; store_bytes(calls)?];
    let draft = match Store::begin(begin.capacity, &begin.reserves) {
        Err(refusal) if room >= store.len() => Draft::Refused(refusal),
        _ => {
            let _ = calls.store_begin(0, &[], &mut store);
            let _ = calls.store_begin(begin.capacity, &begin.reserves, &mut store);
            Draft::bytes(store)
        }
    };
    let name = || format!("store_begin, {begin}");
    lend_between(margins, name, &draft, room, |store| {
        calls.store_begin(begin.capacity, reserves, store)
    })
}
