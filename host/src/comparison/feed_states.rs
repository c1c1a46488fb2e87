//! Bytes that are no feed. Document 02, (iii): "for any other the answer is the program's choice, within the lent buffers,
//! and a refusal still writes nothing".
//!
//! Bytes of another length than a feed's are answered 9, and their totals are zeros.

use super::feed_case::feed_bytes;
use super::lent::{Difference, MARGIN, hexadecimal, lend, lend_feed, pattern, same};
use crate::Random;
use crate::calls::{Answer, Calls};
use crate::reference::calls::Draft;
use crate::reference::feed::{TOTALS_BYTES, room};
use crate::reference::policy::default_policy;

/// The lengths of states go so far past that of a feed.
const PAST: usize = 80;

/// Compares the calls on bytes of every length that is not a feed's, and gives how many there were.
pub fn check_lengths(calls: &dyn Calls) -> Result<u64, Difference> {
    let bytes = feed_bytes(calls)?;
    let ended = Draft::Refused(Answer::new(9, 0));
    let zeros = Draft::bytes(vec![0; TOTALS_BYTES]);
    let mut made = 0;
    for length in (0..=bytes + PAST).filter(|length| *length != bytes) {
        for state in [vec![0; length], pattern(length)] {
            let name = || format!("a call on {length} bytes, which are no feed");
            for (piece, room) in [(&b"a"[..], 20), (b"\xFF", 20), (b"", 0)] {
                lend_feed(
                    [[MARGIN; 2]; 2],
                    name,
                    &state,
                    &ended,
                    room,
                    |state, out| calls.feed_piece(state, piece, out),
                )?;
            }
            for room in [0, 16] {
                lend_feed(
                    [[MARGIN; 2]; 2],
                    name,
                    &state,
                    &ended,
                    room,
                    |state, out| calls.feed_end(state, out),
                )?;
            }
            lend(name, &zeros, TOTALS_BYTES + 3, |out| {
                calls.feed_totals(&state, out)
            })?;
            made += 6;
        }
    }
    Ok(made)
}

/// Makes calls on drawn bytes of a feed's length: any, and those of a feed with some changed. Gives how many there were.
pub fn check_drawn(calls: &dyn Calls, random: &mut Random) -> Result<u64, Difference> {
    let mut state = vec![0; feed_bytes(calls)?];
    if random.below(4) == 0 {
        state.fill_with(|| random.bits() as u8);
    } else {
        spoil_feed(calls, random, &mut state);
    }
    let pieces = [
        "\u{FE0F}",
        "a",
        "\u{2764}",
        "\u{1F3FB}\u{200D}",
        "12\u{20E3}a",
    ];
    for _ in 0..4 {
        let piece = random.element(&pieces).as_bytes();
        let room = (room(piece.len()) + 1).saturating_sub(random.below(3));
        anything(&state, room, |state, out| {
            calls.feed_piece(state, piece, out)
        })?;
        state = anything(&state, room + 8, |state, out| {
            calls.feed_piece(state, piece, out)
        })?;
        anything(&state, 16, |state, out| calls.feed_end(state, out))?;
        let room = random.element(&[0, TOTALS_BYTES - 1, TOTALS_BYTES, 70]);
        anything(&state, room, |state, out| calls.feed_totals(state, out))?;
    }
    Ok(16)
}

/// The bytes of a feed that has taken something, with some of them changed.
fn spoil_feed(calls: &dyn Calls, random: &mut Random, state: &mut [u8]) {
    let mut out = [0; 64];
    let _ = calls.feed_begin(default_policy(), state);
    let _ = calls.feed_piece(
        state,
        "a\u{2764}\u{FE0F}\u{FE0F}\u{E2}".as_bytes(),
        &mut out,
    );
    for _ in 0..1 + random.below(6) {
        let (place, any) = (random.below(state.len()), random.bits() as u8);
        state[place] = random.element(&[0, 1, 0x7F, 0x80, 0xFF, any]);
    }
}

/// Makes a call whose answer is the program's choice. It stays in its buffers; a refusal writes nothing, and a success
/// writes no byte after what it says. Gives the state after it.
fn anything(
    state: &[u8],
    room: usize,
    call: impl Fn(&mut [u8], &mut [u8]) -> u64,
) -> Result<Vec<u8>, Difference> {
    let mut states = [&pattern(MARGIN), state, &pattern(MARGIN)].concat();
    let mut outs = pattern(MARGIN + room + MARGIN);
    let (states_made, outs_made) = (states.clone(), outs.clone());
    let place = MARGIN..MARGIN + state.len();
    let word = call(&mut states[place.clone()], &mut outs[MARGIN..MARGIN + room]);
    let answer = Answer::of_word(word);
    let name = |what: &str| {
        let state = hexadecimal(state);
        format!("a call on bytes that are no feed, room {room}, {answer}: {what}: {state}")
    };
    let is_known = matches!(answer.number, Answer::DONE | 1 | 3 | 8 | 9 | 10);
    let is_known = is_known && (answer.is_refusal() || answer.value <= room as u64);
    same(|| name("a known answer"), &true, &is_known, bool::to_string)?;
    let after = states[place.clone()].to_vec();
    if !answer.is_refusal() {
        states[place].copy_from_slice(state);
        let written = MARGIN..MARGIN + answer.value as usize;
        outs[written.clone()].copy_from_slice(&outs_made[written]);
    }
    let stays = states == states_made && outs == outs_made;
    same(|| name("all else stays"), &true, &stays, bool::to_string)?;
    Ok(after)
}
