//! Lists of calls on a store: drawn ones, with all refusals, and stores that are exactly full.

use super::store_case::{Begin, Step};
use super::texts::Alphabet;
use crate::Random;
use crate::reference::calls;
use crate::reference::policy::default_policy;
use crate::reference::store::CLIENTS;

/// The calls of a drawn list.
const CALLS: usize = 60;

/// The numbers under which is filed most often: few, so that they are in use.
const NUMBERS: [u64; 4] = [0, 1, 7, 255];

/// Numbers that are out of range.
const OUT_OF_RANGE: [u64; 3] = [256, 1 << 32, u64::MAX];

/// A drawn store: small ones that fill, without a reserve, with all reserved, with a common part, and ones whose
/// reserves are refused.
#[must_use]
pub fn drawn_begin(random: &mut Random) -> Begin {
    let number = random.below(CLIENTS + 2);
    let most = random.element(&[1, 8, 40]);
    let reserves: Vec<u64> = (0..number).map(|_| random.below(most) as u64).collect();
    let sum: u64 = reserves.iter().sum();
    let capacity = match random.below(8) {
        0 => sum,
        1 => sum.saturating_sub(1),
        2 => u64::MAX,
        _ => sum + random.below(60) as u64,
    };
    let mut begin = Begin::new(capacity, &reserves);
    match random.below(12) {
        // Reserves whose sum passes 2^64, or is 2^64 less 1.
        0 => begin = Begin::new(u64::MAX, &[u64::MAX, random.below(2) as u64, 5]),
        1 => begin = Begin::new(u64::MAX, &[1 << 63, (1 << 63) - 1, random.below(2) as u64]),
        2 => begin
            .reserves
            .truncate(begin.reserves.len().saturating_sub(1 + random.below(7))),
        _ => {}
    }
    begin
}

/// A drawn list of calls: clients file texts of few bytes under few numbers and release them, with every refusal
/// between.
#[must_use]
pub fn drawn(random: &mut Random, alphabet: &Alphabet) -> Vec<Step> {
    let clients = 1 + random.below(3) as u64;
    let mut list = Vec::new();
    for _ in 0..1 + random.below(CALLS) {
        let place = drawn_place(random, clients);
        list.push(match random.below(5) {
            0 | 1 => Step::Release { place },
            _ => drawn_filing(random, alphabet, place),
        });
    }
    list
}

/// A client and a number, in range most often.
fn drawn_place(random: &mut Random, clients: u64) -> [u64; 2] {
    let client = match random.below(30) {
        0 => 16,
        1 => random.element(&OUT_OF_RANGE),
        2 => 15,
        _ => random.below(clients as usize) as u64,
    };
    let number = match random.below(30) {
        0 => random.element(&OUT_OF_RANGE),
        1 => random.below(256) as u64,
        _ => random.element(&NUMBERS),
    };
    [client, number]
}

/// A filing: most often of a short text with enough room, at times damaged, without a policy, or with a byte less.
fn drawn_filing(random: &mut Random, alphabet: &Alphabet, place: [u64; 2]) -> Step {
    let text = match random.below(8) {
        0 => Vec::new(),
        1 => alphabet.drawn(random),
        2 => alphabet.damaged(random),
        3 => "\u{2764}".as_bytes().to_vec(),
        4 => "1\u{FE0E}".as_bytes().to_vec(),
        _ => vec![b'a'; random.below(20)],
    };
    let wanted = calls::format(&text, default_policy()).wanted();
    let room = match random.below(8) {
        0 => wanted.saturating_sub(1),
        1 => wanted,
        _ => 4 * text.len(),
    };
    Step::File {
        text,
        has_policy: random.below(20) != 0,
        place,
        room,
    }
}

/// Stores that are exactly full: each with its list.
#[must_use]
pub fn full() -> Vec<(Begin, Vec<Step>)> {
    let heart = "\u{2764}".as_bytes();
    let own = vec![
        Step::file(heart, 0, 0),
        Step::file(b"", 0, 1),
        Step::file(b"", 0, 1),
        Step::file(b"a", 0, 2),
        Step::release(0, 1),
        Step::release(0, 1),
        Step::release(0, 0),
        Step::file(b"abcdef", 0, 2),
        Step::file(b"a", 15, 0),
    ];
    let common = vec![
        Step::file(b"abcdefgh", 0, 0),
        Step::file(b"abcde", 1, 0),
        Step::file(b"abcd", 1, 0),
        Step::file(b"a", 2, 0),
        Step::file(b"a", 0, 1),
        Step::file(b"a", 1, 1),
        Step::release(0, 0),
        Step::file(b"abcd", 1, 1),
        Step::file(b"abcde", 0, 0),
        Step::file(b"abcd", 0, 0),
        Step::file(b"a", 0, 1),
        Step::release(1, 0),
        Step::file(b"abcde", 0, 1),
        Step::file(b"abcd", 0, 1),
    ];
    let all_clients = (0..16).map(|client| Step::file(b"ab", client, 255));
    let past = (0..18).map(|client| Step::file(b"a", client, 0));
    vec![
        (Begin::new(6, &[6]), own.clone()),
        (Begin::new(6, &[]), own),
        (Begin::new(12, &[4, 4]), common.clone()),
        (Begin::new(12, &[]), common),
        (
            Begin::new(32, &[2; 16]),
            all_clients.clone().chain(past.clone()).collect(),
        ),
        (Begin::new(32, &[]), all_clients.chain(past).collect()),
        (
            Begin::new(0, &[]),
            vec![Step::file(b"", 0, 0), Step::file(b"a", 0, 1)],
        ),
        (
            Begin::new(u64::MAX, &[u64::MAX]),
            vec![Step::file(b"a", 0, 0), Step::file(b"a", 1, 0)],
        ),
        (
            Begin::new(u64::MAX, &[]),
            vec![Step::file(heart, 9, 9), Step::release(9, 9)],
        ),
    ]
}

/// Reserves that are refused, or are just not.
#[must_use]
pub fn begins() -> Vec<Begin> {
    let most = u64::MAX;
    let mut begins = vec![
        Begin::new(5, &[3, 2]),
        Begin::new(4, &[3, 2]),
        Begin::new(most, &[most, 1]),
        Begin::new(most, &[1 << 63, 1 << 63]),
        Begin::new(most - 1, &[1 << 63, (1 << 63) - 1]),
        Begin::new(most, &[most; 16]),
        Begin::new(0, &[most; 16]),
        Begin::new(15, &[1; 16]),
        Begin::new(16, &[1; 16]),
        Begin::new(17, &[1; 17]),
        Begin::new((1 << 56) - 1, &[1 << 56]),
        Begin::new(1 << 56, &[1 << 57]),
    ];
    // Reserves that are no whole number.
    for length in [1, 7, 9, 127, 129] {
        begins.push(Begin {
            capacity: most,
            reserves: vec![0; length],
        });
    }
    begins
}
