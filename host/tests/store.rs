//! The reading of document 02, (x), by its sentences.

use tilghorz_comparison::Random;
use tilghorz_comparison::calls::{Answer, Calls, Reference};
use tilghorz_comparison::comparison::faults::Fault;
use tilghorz_comparison::comparison::faulty::Faulty;
use tilghorz_comparison::comparison::policies::Policy;
use tilghorz_comparison::comparison::store_case::{self, Begin, Step};
use tilghorz_comparison::comparison::store_lists;
use tilghorz_comparison::comparison::texts::Alphabet;
use tilghorz_comparison::reference::policy::default_policy;
use tilghorz_comparison::reference::store::{MOST_VALUE, STORE_BYTES, Store};

/// A store with these reserves.
fn begun(capacity: u64, reserves: &[u64]) -> Result<Store, Answer> {
    Store::begin(capacity, &Begin::new(capacity, reserves).reserves)
}

/// A refusal 14.
const fn full(fits: u64) -> Result<Store, Answer> {
    Err(Answer::new(14, fits))
}

const BAD: Answer = Answer::new(13, 0);

#[test]
fn what_a_client_uses_beyond_its_reserve_comes_out_of_the_common_part() {
    let store = begun(20, &[8, 4]).expect("a store");
    assert_eq!([0, 1, 2].map(|client| store.fits(client)), [16, 12, 8]);
    let store = store.charge(0, 0, 10).expect("it fits");
    assert_eq!([0, 1, 2].map(|client| store.fits(client)), [6, 10, 6]);
    assert_eq!(store.charge(1, 0, 11), full(10));
    // "A client still within its reserve .. never gets 14 for a charge up to what is left of it".
    let store = store.charge(2, 0, 6).expect("it fits");
    assert_eq!([0, 1, 2].map(|client| store.fits(client)), [0, 4, 0]);
    assert!(store.charge(1, 0, 4).is_ok());
}

#[test]
fn a_release_gives_overflow_back_first() {
    let store = begun(12, &[4, 0]).expect("a store");
    let store = store.charge(0, 0, 5).and_then(|of| of.charge(0, 1, 5));
    let store = store.expect("both fit");
    assert_eq!((store.fits(0), store.fits(1)), (2, 2));
    let (given, store) = store.release(0, 0).expect("in use");
    // The client uses 5 of its 10: the common part has 5 back, less 1 that is still beyond the reserve.
    assert_eq!((given, store.fits(0), store.fits(1)), (5, 7, 7));
    assert_eq!(store.used(0), Ok(5));
    assert_eq!(store.release(0, 0), Err(BAD));
    assert!(
        store.charge(0, 0, 7).is_ok(),
        "the number can be used again"
    );
}

#[test]
fn refusal_13_is_for_clients_and_numbers() {
    let store = begun(9, &[]).expect("a store").charge(15, 255, 0);
    let store = store.expect("an empty message uses its number");
    for (client, number) in [(16, 0), (0, 256), (u64::MAX, 0), (0, u64::MAX), (15, 255)] {
        assert_eq!(store.charge(client, number, 100), Err(BAD));
    }
    assert_eq!(store.charge(15, 254, 100), full(9));
    for (client, number) in [(16, 0), (0, 256), (0, 0), (15, 254)] {
        assert_eq!(store.release(client, number), Err(BAD));
    }
    assert_eq!(store.used(16), Err(BAD));
    assert_eq!(store.used(15), Ok(0));
}

#[test]
fn reserves_that_pass_the_capacity_are_refused_with_it() {
    assert!(begun(5, &[3, 2]).is_ok());
    assert_eq!(begun(4, &[3, 2]), full(4));
    assert_eq!(begun(u64::MAX, &[u64::MAX, 1]), full(MOST_VALUE));
    assert!(begun(u64::MAX, &[u64::MAX]).is_ok());
    assert!(begun(16, &[1; 16]).is_ok());
    assert_eq!(begun(17, &[1; 17]), Err(BAD));
    assert_eq!(Store::begin(9, &[0; 9]), Err(BAD));
}

#[test]
fn formattings_refusals_come_first() {
    let mut store = vec![0; STORE_BYTES];
    assert_eq!(Reference.store_begin(0, &[], &mut store[1..]) >> 56, 8);
    assert_eq!(Reference.store_begin(0, &[], &mut store) >> 56, 0);
    let mut file = |text: &[u8], policy: &[u8], client, room| {
        let mut out = vec![0; room];
        let word = Reference.store_file(&mut store, text, policy, client, 0, &mut out);
        Answer::of_word(word)
    };
    let heart = "\u{2764}".as_bytes();
    assert_eq!(file(b"\xFF", b"", 16, 0), Answer::new(2, 0));
    assert_eq!(file(b"a\xFF", default_policy(), 16, 0), Answer::new(3, 1));
    assert_eq!(file(heart, default_policy(), 16, 5), Answer::new(8, 6));
    assert_eq!(file(heart, default_policy(), 16, 6), BAD);
    assert_eq!(file(heart, default_policy(), 0, 6), Answer::new(14, 0));
    assert_eq!(file(b"", default_policy(), 0, 0), Answer::NOTHING);
}

#[test]
fn the_reference_has_no_difference_from_itself_on_long_lists() {
    let (mut random, alphabet) = (Random::new(), Alphabet::new());
    let policy = Policy::default_policy();
    for _ in 0..40 {
        let begin = store_lists::drawn_begin(&mut random);
        let list = store_lists::drawn(&mut random, &alphabet);
        assert_eq!(
            store_case::check(&Reference, &policy, &begin, &list),
            Ok(())
        );
    }
}

#[test]
fn every_refusal_is_in_the_lists() {
    let mut numbers = [0; 256];
    let (mut random, alphabet) = (Random::new(), Alphabet::new());
    for _ in 0..200 {
        let begin = store_lists::drawn_begin(&mut random);
        let mut store = vec![0; STORE_BYTES];
        let word = Reference.store_begin(begin.capacity, &begin.reserves, &mut store);
        numbers[(word >> 56) as usize] += 1;
        for step in store_lists::drawn(&mut random, &alphabet) {
            let word = match &step {
                Step::File {
                    text,
                    has_policy,
                    place: [client, number],
                    room,
                } => {
                    let policy = &default_policy()[usize::from(!has_policy)..];
                    let mut out = vec![0; *room];
                    Reference.store_file(&mut store, text, policy, *client, *number, &mut out)
                }
                Step::Release {
                    place: [client, number],
                } => Reference.store_release(&mut store, *client, *number),
            };
            numbers[(word >> 56) as usize] += 1;
        }
    }
    for number in [0, 2, 3, 8, 13, 14, 255] {
        assert!(numbers[number] >= 10, "{number}: {}", numbers[number]);
    }
}

#[test]
fn full_stores_show_the_faults_of_the_accounts() {
    let policy = Policy::default_policy();
    for fault in [
        Fault::NeverFull,
        Fault::CommonOfEach,
        Fault::UnchangedFree,
        Fault::EmptyUsesNone,
        Fault::ReserveLent,
        Fault::ReserveFirst,
        Fault::ReleasesTwice,
    ] {
        let faulty = Faulty::new(&Reference, fault);
        let mut lists = store_lists::full().into_iter();
        let is_found =
            lists.any(|(begin, list)| store_case::check(&faulty, &policy, &begin, &list).is_err());
        assert!(is_found, "{fault:?}");
    }
}
