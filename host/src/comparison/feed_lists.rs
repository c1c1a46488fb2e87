//! Lists of calls on a feed: threads cut in every way and at random, with refused calls and changes of the policy between,
//! and around the limit.

use super::feed_case::Step;
use super::policies::{self, Policy};
use super::texts::{Alphabet, SPOILS};
use crate::Random;
use crate::reference::calls::LONGEST_TEXT;
use crate::reference::feed::room;

/// A thread of this length is cut into fewer pieces.
const LONG_THREAD: usize = 1000;

/// A thread cut after each byte whose bit is set, lowest bit first, and its end.
#[must_use]
pub fn cut(thread: &[u8], bits: usize) -> Vec<Step> {
    let mut list = Vec::new();
    let mut from = 0;
    for place in 1..=thread.len() {
        if place == thread.len() || bits >> (place - 1) & 1 == 1 {
            list.push(Step::piece(&thread[from..place]));
            from = place;
        }
    }
    list.push(Step::END);
    list
}

/// A thread cut so, with a change to another of the policies after each piece.
#[must_use]
pub fn cut_with_changes(thread: &[u8], bits: usize, policies: &[Policy]) -> Vec<Step> {
    let mut list = Vec::new();
    for (number, step) in cut(thread, bits).into_iter().enumerate() {
        list.push(step);
        let bytes = policies[(number + bits) % policies.len()].bytes.clone();
        list.push(Step::Policy { bytes });
    }
    list
}

/// A thread byte by byte, and its end.
#[must_use]
pub fn byte_by_byte(thread: &[u8]) -> Vec<Step> {
    let bytes = thread.chunks(1).map(Step::piece);
    bytes.chain([Step::END]).collect()
}

/// A drawn thread, cut at random, with refused calls between its pieces and calls after its end.
#[must_use]
pub fn drawn(random: &mut Random, alphabet: &Alphabet) -> Vec<Step> {
    let thread = drawn_thread(random, alphabet);
    let most = random.element(&[1, 1, 2, 4, 16, 64, 300, 4096]);
    // Pieces that are short for a long thread would make a list of very many calls.
    let most = match thread.len() {
        ..LONG_THREAD => most,
        length => most.max(length / 40),
    };
    let refused_in = random.element(&[2, 6, 1000]);
    let changes_in = random.element(&[2, 8, 1 << 20]);
    let mut list = Vec::new();
    let mut rest = &thread[..];
    while !rest.is_empty() {
        if random.below(refused_in) == 0 {
            list.push(between(random, rest));
            continue;
        }
        if random.below(changes_in) == 0 {
            list.push(change(random));
        }
        let (piece, after) = rest.split_at(rest.len().min(1 + random.below(most)));
        let more = random.element(&[0, 0, 1, 100]);
        list.push(Step::Piece {
            bytes: piece.to_vec(),
            room: room(piece.len()) + more,
        });
        rest = after;
    }
    list.push(Step::End { room: room(0) - 1 });
    list.extend([Step::END, Step::END, Step::piece(b"a"), Step::piece(b"")]);
    list.push(change(random));
    list.push(Step::Piece {
        bytes: vec![0xFF],
        room: 0,
    });
    list
}

/// A change to a drawn policy, or to bytes that are none.
fn change(random: &mut Random) -> Step {
    let policy = match random.below(4) {
        0 => policies::refused(random),
        _ => policies::drawn(random),
    };
    Step::Policy {
        bytes: policy.bytes,
    }
}

/// A drawn thread, most often short, well-formed or damaged.
fn drawn_thread(random: &mut Random, alphabet: &Alphabet) -> Vec<u8> {
    match random.below(256) {
        0 => (0..200).flat_map(|_| alphabet.drawn(random)).collect(),
        1..64 => alphabet.damaged(random),
        _ => alphabet.drawn(random),
    }
}

/// A call that is most often refused, where the thread goes on with these bytes: with too little room, with bytes that
/// are ill-formed, or an end.
fn between(random: &mut Random, rest: &[u8]) -> Step {
    let piece = &rest[..rest.len().min(1 + random.below(8))];
    match random.below(8) {
        0 => Step::END,
        1 => Step::piece(random.element(&SPOILS)),
        2 => Step::piece(&[random.bits() as u8]),
        3 => Step::piece(&[piece, random.element(&SPOILS)].concat()),
        4 => Step::Piece {
            bytes: Vec::new(),
            room: room(0) - random.below(2),
        },
        5 => Step::Piece {
            bytes: [piece, random.element(&SPOILS)].concat(),
            room: 0,
        },
        _ => Step::Piece {
            bytes: piece.to_vec(),
            room: room(piece.len()) - 1 - random.below(16),
        },
    }
}

/// Threads that reach the limit: in one piece, in two, and by an unfinished character; each goes on after that.
#[must_use]
pub fn around_limit() -> [Vec<Step>; 3] {
    let plain = vec![b'a'; LONGEST_TEXT];
    let mut ill_formed = vec![b'a'; LONGEST_TEXT + 1];
    ill_formed[0] = 0xFF;
    let heart = "\u{2764}".as_bytes();
    let almost = LONGEST_TEXT - heart.len();
    [
        vec![
            Step::Piece {
                bytes: ill_formed,
                room: 0,
            },
            Step::piece(&plain),
            Step::piece(b"a"),
            Step::piece(b"\xFF"),
            Step::piece(b""),
            Step::END,
        ],
        vec![
            Step::piece(&plain[..almost]),
            Step::piece(heart),
            Step::piece("\u{FE0F}".as_bytes()),
            Step::END,
        ],
        vec![
            Step::piece(&[&plain[..almost + 2], &heart[..1]].concat()),
            Step::piece(&heart[1..2]),
            Step::piece(b"a"),
            Step::END,
        ],
    ]
}
