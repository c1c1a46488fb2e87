//! A call with a lent buffer: its answer, the bytes it writes, and the bytes it leaves as they were.

use std::fmt::{self, Display, Formatter, Write};
use std::sync::LazyLock;

use crate::calls::Answer;
use crate::reference::calls::Draft;
use crate::reference::near::Drafts;

/// The bytes before and after a lent buffer that are watched too. They are an odd number, so that the buffer begins at
/// an odd place.
pub const MARGIN: usize = 13;

/// A difference between what a call did and what it should have done.
#[derive(Debug, Clone, PartialEq, Eq)]
pub struct Difference {
    /// The call, with its numbers.
    pub call: String,
    /// What should have come.
    pub expected: String,
    /// What came.
    pub found: String,
}

impl Display for Difference {
    fn fmt(&self, out: &mut Formatter<'_>) -> fmt::Result {
        writeln!(out, "  call      {}", self.call)?;
        writeln!(out, "  expected  {}", self.expected)?;
        write!(out, "  found     {}", self.found)
    }
}

/// Compares two values that are not in a lent buffer.
pub fn same<T: PartialEq>(
    call: impl FnOnce() -> String,
    expected: &T,
    found: &T,
    show: impl Fn(&T) -> String,
) -> Result<(), Difference> {
    if expected == found {
        return Ok(());
    }
    Err(Difference {
        call: call(),
        expected: show(expected),
        found: show(found),
    })
}

/// Makes a call with a buffer of this room, which has a pattern in it, and compares the answer and the whole buffer
/// with what the draft says. The buffer's margins must stay as they were too.
pub fn lend(
    name: impl Fn() -> String,
    draft: &Draft,
    room: usize,
    call: impl FnOnce(&mut [u8]) -> u64,
) -> Result<(), Difference> {
    lend_between([MARGIN; 2], name, draft, room, call)
}

/// The same with margins of `before` and `after` bytes around the buffer. Buffer and margins fill one allocation.
pub fn lend_between(
    [before, after]: [usize; 2],
    name: impl Fn() -> String,
    draft: &Draft,
    room: usize,
    call: impl FnOnce(&mut [u8]) -> u64,
) -> Result<(), Difference> {
    let (answer, written) = draft.with_room(room);
    let mut buffer = pattern(before + room + after);
    let found = Answer::of_word(call(&mut buffer[before..before + room]));
    let name = || format!("{}, room {room}", name());
    same(name, &answer, &found, Answer::to_string)?;
    let mut expected = pattern(buffer.len());
    expected[before..before + written.len()].copy_from_slice(written);
    if buffer == expected {
        return Ok(());
    }
    let place = (0..buffer.len()).find(|&place| buffer[place] != expected[place]);
    let place = place.unwrap_or(0);
    let whose = whose_byte(place, before, written.len(), room);
    let show = |bytes: &[u8]| format!("{:02X} at {whose}", bytes[place]);
    Err(Difference {
        call: name(),
        expected: show(&expected),
        found: show(&buffer),
    })
}

/// Makes a call that may change a feed and writes to an output, each between `margins` of bytes, and compares all
/// that it does with what the draft says. A refusal must leave the feed as it was. Gives the feed after the call.
pub fn lend_feed(
    margins: [[usize; 2]; 2],
    name: impl Fn() -> String,
    feed: &[u8],
    draft: &Draft,
    room: usize,
    call: impl FnOnce(&mut [u8], &mut [u8]) -> u64,
) -> Result<Vec<u8>, Difference> {
    let [[before, after], out_margins] = margins;
    let made = [&pattern(before), feed, &pattern(after)].concat();
    let mut memory = made.clone();
    let place = before..before + feed.len();
    lend_between(out_margins, &name, draft, room, |out| {
        call(&mut memory[place.clone()], out)
    })?;
    let changed = memory[place.clone()].to_vec();
    memory[place.clone()].copy_from_slice(feed);
    let is_same = memory == made;
    let name = |what: &str| format!("{}, room {room}: {what}", name());
    same(
        || name("the bytes around the feed stay"),
        &true,
        &is_same,
        bool::to_string,
    )?;
    if draft.with_room(room).0.is_refusal() {
        let name = || name("the feed stays as it was");
        same(name, &feed.to_vec(), &changed, |feed| hexadecimal(feed))?;
    }
    Ok(changed)
}

/// Makes a call that writes to two tables, each between `margins` of bytes, and compares the answer and both tables with
/// what the drafts say.
pub fn lend_two(
    margins: [[usize; 2]; 2],
    name: impl Fn() -> String,
    drafts: &Drafts,
    rooms: [usize; 2],
    call: impl FnOnce(&mut [u8], &mut [u8]) -> u64,
) -> Result<(), Difference> {
    let (answer, written) = drafts.with_rooms(rooms);
    let [first, second] = margins;
    let mut buffers = [first, second].map(|_| Vec::new());
    for ((buffer, [before, after]), room) in buffers.iter_mut().zip(margins).zip(rooms) {
        *buffer = pattern(before + room + after);
    }
    let mut expected = buffers.clone();
    for ((expected, [before, _]), written) in expected.iter_mut().zip(margins).zip(written) {
        expected[before..before + written.len()].copy_from_slice(written);
    }
    let [inside, sharing] = &mut buffers;
    let found = Answer::of_word(call(
        &mut inside[first[0]..first[0] + rooms[0]],
        &mut sharing[second[0]..second[0] + rooms[1]],
    ));
    let name = |what: &str| format!("{}, rooms {rooms:?}{what}", name());
    same(|| name(""), &answer, &found, Answer::to_string)?;
    for ((buffer, expected), table) in buffers.iter().zip(&expected).zip(["inside", "sharing"]) {
        let name = || name(&format!(": the table {table}"));
        same(name, expected, buffer, |bytes| hexadecimal(bytes))?;
    }
    Ok(())
}

/// What a byte of a buffer with margins is.
fn whose_byte(place: usize, before: usize, written: usize, room: usize) -> String {
    match place.checked_sub(before) {
        None => "before the buffer".to_owned(),
        Some(at) if at < written => format!("byte {at} of the {written} written"),
        Some(at) if at < room => format!("byte {} after the {written} written", at - written),
        Some(_) => "after the buffer".to_owned(),
    }
}

/// Bytes as a report has them: the first of many.
#[must_use]
pub fn hexadecimal(bytes: &[u8]) -> String {
    const MOST: usize = 240;
    let shown = &bytes[..bytes.len().min(MOST)];
    let mut text = format!("{} bytes:", bytes.len());
    for byte in shown {
        // Writing to a string does not fail.
        let _ = write!(text, " {byte:02X}");
    }
    if shown.len() < bytes.len() {
        text.push_str(" ..");
    }
    text
}

/// What a buffer holds before a call: no two neighbours are equal, and places 256 apart differ too.
#[must_use]
pub fn pattern(length: usize) -> Vec<u8> {
    static PERIOD: LazyLock<Vec<u8>> = LazyLock::new(|| {
        let byte = |place: usize| (place as u8).wrapping_mul(0x9D) ^ (place >> 8) as u8 ^ 0xC5;
        (0..1 << 16).map(byte).collect()
    });
    let mut bytes = Vec::with_capacity(length);
    while bytes.len() < length {
        let rest = length - bytes.len();
        bytes.extend_from_slice(&PERIOD[..rest.min(PERIOD.len())]);
    }
    bytes
}
