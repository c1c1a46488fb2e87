//! Storage that clients share: document 02, (x).

use std::fs;
use std::path::Path;

use tilghorz::{Formatted, Policy, Refusal, Store};

const BAD: Refusal = Refusal::BadClientOrNumber;

/// A store with these reserves.
fn begun(capacity: u64, reserves: &[u64]) -> Store {
    Store::new(capacity, reserves).expect("a store")
}

/// The refusal that says how many bytes would fit.
const fn full(fits: usize) -> Refusal {
    Refusal::DoesNotFit { fits }
}

#[test]
fn a_store_is_begun_if_its_reserves_are_within_its_capacity() {
    assert!(Store::new(0, &[]).is_ok());
    assert!(Store::new(16, &[1; 16]).is_ok());
    assert_eq!(Store::new(15, &[1; 16]), Err(full(15)));
    assert_eq!(Store::new(17, &[1; 17]), Err(BAD));
    // The sum passes 2^64, and the capacity has more than 56 bits.
    assert_eq!(Store::new(u64::MAX, &[u64::MAX, 1]), Err(full(usize::MAX)));
    assert!(Store::new(u64::MAX, &[u64::MAX]).is_ok());
}

#[test]
fn a_message_is_charged_its_formatted_length() {
    let policy = Policy::default();
    let mut store = begun(u64::MAX, &[]);
    let texts = ["", "plain", "1\u{FE0E} and \u{2764}", "\u{231A}\u{FE0F}"];
    let mut charged = 0;
    for (number, text) in (0..).zip(texts) {
        let filed = store.file(text.as_bytes(), &policy, 3, number);
        let formatted = tilghorz::format(text.as_bytes(), &policy).expect("a text");
        assert_eq!(filed, Ok(formatted.clone()));
        charged += formatted.len();
        assert_eq!(store.used(3), Ok(charged));
    }
    for (number, text) in (0..).zip(texts) {
        let length = tilghorz::format(text.as_bytes(), &policy).expect("a text");
        assert_eq!(store.release(3, number), Ok(length.len()));
        assert_eq!(store.release(3, number), Err(BAD));
    }
    assert_eq!(store, begun(u64::MAX, &[]), "all is given back");
}

#[test]
fn a_reserve_stays_its_clients_own() {
    let policy = Policy::default();
    let mut store = begun(12, &[4, 4]);
    store.file(b"abcdefgh", &policy, 0, 0).expect("it fits");
    assert_eq!(store.file(b"a", &policy, 2, 0), Err(full(0)));
    assert_eq!(store.file(b"abcde", &policy, 1, 0), Err(full(4)));
    store.file(b"abcd", &policy, 1, 0).expect("its own reserve");
    // Overflow first: the common part has its 4 bytes back.
    assert_eq!(store.release(0, 0), Ok(8));
    store.file(b"abcd", &policy, 1, 1).expect("the common part");
    assert_eq!(
        [0, 1, 2].map(|client| store.used(client)),
        [Ok(0), Ok(8), Ok(0)]
    );
    assert_eq!(store.used(16), Err(BAD));
}

#[test]
fn a_refused_filing_changes_nothing() {
    let policy = Policy::default();
    let mut store = begun(5, &[]);
    store.file(b"ab", &policy, 0, 0).expect("it fits");
    let before = store.clone();
    let heart = "\u{2764}".as_bytes();
    let mut out = [7; 6];
    for (text, client, number, room, refusal) in [
        (
            &b"ab\xFF"[..],
            0,
            1,
            6,
            Refusal::NotWellFormed { valid_up_to: 2 },
        ),
        (heart, 16, 0, 5, Refusal::OutputTooShort { wanted: 6 }),
        (heart, 16, 0, 6, BAD),
        (heart, 0, 256, 6, BAD),
        (heart, 0, 0, 6, BAD),
        (heart, 0, 1, 6, full(3)),
        (b"abcd", 15, 255, 6, full(3)),
    ] {
        let filed = store.file_into(text, &policy, client, number, &mut out[..room]);
        assert_eq!(filed, Err(refusal));
        assert_eq!((&store, out), (&before, [7; 6]));
    }
    let filed = store.file_into(b"abc", &policy, 15, 255, &mut []);
    assert_eq!(filed, Ok(Formatted::Unchanged));
    assert_eq!(
        format!("{store:?}"),
        "Store { used: [2, 0, 0, 0, 0, 0, 0, 0, 0, 0, 0, 0, 0, 0, 0, 3], .. }"
    );
}

/// The lines between two marks of a text, without a prefix. The first mark is a whole line.
fn between<'a>(text: &'a str, first: &str, last: &str, prefix: &str) -> Vec<&'a str> {
    let mut lines = text.lines().skip_while(|line| *line != first).skip(1);
    let lines = lines.by_ref().take_while(|line| *line != last);
    let lines = lines.map(|line| line.strip_prefix(prefix).unwrap_or(line).trim_start());
    lines.filter(|line| !line.starts_with("# ")).collect()
}

/// The example in the comment of `Store` is run as a test. README.md shows the same one.
#[test]
fn the_example_of_the_readme_is_run() {
    let folder = Path::new(env!("CARGO_MANIFEST_DIR"));
    let readme = fs::read_to_string(folder.join("../../README.md")).expect("README.md");
    let shown = between(&readme, "```rust", "```", "");
    let run = between(include_str!("../src/store.rs"), "/// ```", "/// ```", "///");
    assert!(shown.len() > 10, "{shown:?}");
    assert_eq!(shown, run);
}
