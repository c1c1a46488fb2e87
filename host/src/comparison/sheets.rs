//! Sheets for the comparison: every short one of tokens or of bytes, drawn ones, damaged ones, and long ones.

use super::policies::{self, Policy};
use crate::Random;
use crate::reference::calls::{Draft, LONGEST_TEXT};
use crate::reference::{characters, policy, sheet};

/// The tokens of short sheets: code points of two digits and of four, three digits, a number that is no code point, what
/// parts and ends pieces, and a byte that no sheet has.
pub const TOKENS: [&[u8]; 9] = [
    b"30", b"39", b"2764", b"276", b"FFFFFF", b",", b"-", b"\n", b"x",
];

/// Bytes of each kind: digits, a small letter, what parts and ends pieces, and a blank.
pub const FEW_BYTES: [&[u8]; 9] = [b"0", b"9", b"A", b"F", b"a", b",", b"-", b"\n", b" "];

/// All bytes of a sheet, and two others.
pub const ALL_BYTES: [&[u8]; 21] = [
    b"0", b"1", b"2", b"3", b"4", b"5", b"6", b"7", b"8", b"9", b"A", b"B", b"C", b"D", b"E", b"F",
    b",", b"-", b"\n", b"a", b" ",
];

/// The most bytes of [`FEW_BYTES`] in a short sheet.
pub const MOST_FEW_BYTES: usize = 6;

/// Sheets with one error each, and whole ones, of the kinds that document 02 names. The first is whole.
pub const WORKED: [&[u8]; 32] = [
    b"30-39,2764\n\n0000A9,30\n30,30-31,31\n",
    b"39-AE\n\n\n\n",
    b"\n\n\n\n",
    b"030\n\n\n\n",
    b"30,030,31\n\n\n\n",
    b"30-031\n\n\n\n",
    b"\n0000030\n\n\n",
    b"30-0000031\n\n\n\n",
    b"\n\na9\n\n",
    b"30, 31\n\n\n\n",
    b"30\r\n\r\n\r\n\r\n",
    b"30,,31\n\n\n\n",
    b",30\n\n\n\n",
    b"\n\n\n30,\n",
    b"30-\n\n\n\n",
    b"-30\n\n\n\n",
    b"30-31-32\n\n\n\n",
    b"\n\n\n\n\n",
    b"30\n\n\n\n30\n",
    b"30\n\n\n31",
    b"39-30x",
    b"39-30,",
    b"39-30",
    b"39-30\n\n\n\n",
    b"30,x,39-30\n\n\n\n",
    b"39-30,x\n\n\n\n",
    b"41\n\n\n",
    b"41,39-30\n\n\n\n",
    b"FFFFFF\n\n\n\n",
    b"\n\nD800-110000\n\n",
    b"30-41\n\n\n\n",
    b"2F-41\n\n\n\n",
];

/// Calls a function with the sheet, and with every sheet that has up to `most` further tokens, until it returns an error.
pub fn every_sheet<E>(
    tokens: &[&[u8]],
    most: usize,
    sheet: &mut Vec<u8>,
    visit: &mut impl FnMut(&[u8]) -> Result<(), E>,
) -> Result<(), E> {
    visit(sheet)?;
    if most == 0 {
        return Ok(());
    }
    for token in tokens {
        let length = sheet.len();
        sheet.extend(*token);
        every_sheet(tokens, most - 1, sheet, visit)?;
        sheet.truncate(length);
    }
    Ok(())
}

/// A drawn policy: one of the comparison's, or one with few members, or one with runs of neighbouring entries.
#[must_use]
pub fn drawn_policy(random: &mut Random) -> Vec<u8> {
    if random.below(4) == 0 {
        return policies::drawn(random).bytes;
    }
    let mut bytes = policy::empty();
    for set in 0..4 {
        for _ in 0..random.below(8) {
            let first = random.below(characters::entries());
            let most = random.element(&[1, 1, 2, 3, 40]);
            let last = (first + random.below(most)).min(characters::entries() - 1);
            for entry in first..=last {
                let (byte, bit) = policy::place(set, entry);
                bytes[byte] |= bit;
            }
        }
    }
    bytes
}

/// A drawn sheet: pieces in any sequence, overlapping, with digits 0 at the front, few of them no entries or running
/// down.
#[must_use]
pub fn drawn(random: &mut Random) -> Vec<u8> {
    if random.below(3) == 0 {
        return written(&drawn_policy(random));
    }
    let lines = [(); 4].map(|()| {
        let most = random.element(&[1, 3, 12]);
        let pieces: Vec<String> = (0..random.below(most)).map(|_| piece(random)).collect();
        pieces.join(",") + "\n"
    });
    lines.concat().into_bytes()
}

/// The sheet of a policy.
fn written(policy: &[u8]) -> Vec<u8> {
    match sheet::write(policy) {
        Draft::Writes { bytes, .. } => bytes,
        _ => Vec::new(),
    }
}

/// A drawn code point or range.
fn piece(random: &mut Random) -> String {
    let mut ends = [code_point(random), code_point(random)];
    if random.below(16) > 0 {
        ends.sort_unstable();
    }
    let [start, end] = ends.map(|code_point| digits(random, code_point));
    if random.coin() {
        start
    } else {
        format!("{start}-{end}")
    }
}

/// A drawn entry, or now and then another number.
fn code_point(random: &mut Random) -> u32 {
    let number = random.below(characters::entries()) as u64;
    let entry = characters::entry(number).unwrap_or_default();
    match random.below(48) {
        0 => entry + 1,
        1 => random.element(&[0, 0xFF, 0x100, 0xD800, 0x10_FFFF, 0x11_0000, 0xFF_FFFF]),
        _ => entry,
    }
}

/// A code point in a drawn number of digits that is allowed.
fn digits(random: &mut Random, code_point: u32) -> String {
    let fewest = match code_point {
        0..=0xFF => 2,
        _ => 4,
    };
    let width = random.element(&[fewest, fewest, 4, 5, 6]);
    format!("{code_point:0width$X}")
}

/// A drawn sheet with some bytes exchanged, left out or put in, or cut off.
#[must_use]
pub fn damaged(random: &mut Random) -> Vec<u8> {
    const OTHERS: [u8; 9] = [b'\r', b' ', b'\t', b'g', b'f', b'\0', b'+', 0x80, 0xFF];
    let mut sheet = drawn(random);
    for _ in 0..1 + random.below(3) {
        let byte = match random.below(6) {
            0 => random.element(&OTHERS),
            _ => random.element(&ALL_BYTES)[0],
        };
        let at = random.below(sheet.len() + 1);
        match random.below(8) {
            0 => sheet.truncate(at),
            1..=3 => sheet.insert(at, byte),
            4 | 5 if at < sheet.len() => sheet[at] = byte,
            _ if at < sheet.len() => drop(sheet.remove(at)),
            _ => sheet.push(byte),
        }
    }
    sheet
}

/// Policies for the writer: the accepted ones of the comparison, one for each number of neighbours at the front, in the
/// middle and at the end of the table, and every other entry, which makes the longest sheet.
#[must_use]
pub fn policies(random: &mut Random) -> Vec<Vec<u8>> {
    let accepted = policies::accepted(random).into_iter();
    let mut all: Vec<Vec<u8>> = accepted.map(|Policy { bytes, .. }| bytes).collect();
    let entries = characters::entries();
    for length in 1..=4 {
        for first in [0, entries / 2, entries - length] {
            let members = first..first + length;
            all.push(policies::of_sets(|set, entry| {
                members.contains(&(entry + set))
            }));
        }
    }
    all.push(policies::of_sets(|_, entry| entry % 2 == 0));
    all
}

/// A sheet of this length that says no more than `30`, and the same with a wrong byte at its front.
#[must_use]
pub fn of_length(length: usize) -> [Vec<u8>; 2] {
    const ENDS: &[u8] = b"\n\n\n\n";
    // Pieces of three bytes with their commas, and up to two of five, so that all is filled. The last comma goes.
    let room = length + 1 - ENDS.len();
    let long = (2 * room) % 3;
    let mut sheet = Vec::with_capacity(length + 1);
    sheet.extend(b"0030,".repeat(long));
    sheet.extend(b"30,".repeat((room - 5 * long) / 3));
    sheet.pop();
    sheet.extend(ENDS);
    let mut wrong = sheet.clone();
    wrong[0] = b'x';
    [sheet, wrong]
}

/// Sheets of a length above the limit, of which the form is not tested.
#[must_use]
pub fn too_long() -> [Vec<u8>; 2] {
    of_length(LONGEST_TEXT + 1)
}
