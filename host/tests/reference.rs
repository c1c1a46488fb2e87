//! The independent reading of documents 01 and 02: worked texts, sentences, and the crate beside it.

use std::str;

use tilghorz_comparison::Random;
use tilghorz_comparison::calls::{Answer, Calls, POLICY_BYTES, Reference};
use tilghorz_comparison::comparison::policies::{self, Policy};
use tilghorz_comparison::comparison::texts::{Alphabet, every_text};
use tilghorz_comparison::comparison::{list_case, text_case, tip_case};
use tilghorz_comparison::reference::book::Book;
use tilghorz_comparison::reference::calls::{Draft, filed, format, list, mend, scan};
use tilghorz_comparison::reference::policy::default_policy;
use tilghorz_comparison::reference::tips::Membership;
use tilghorz_comparison::reference::{characters, policy, programs, repair, tips, utf8};

/// The numbers of a table.
fn numbers(draft: &Draft) -> Vec<u64> {
    let Draft::Writes { bytes, .. } = draft else {
        panic!("{draft:?}");
    };
    let number = |bytes: &[u8]| u64::from_le_bytes(bytes.try_into().expect("eight bytes"));
    bytes.chunks(8).map(number).collect()
}

/// The formatted text under the default policy.
fn formatted(text: &str) -> String {
    match format(text.as_bytes(), default_policy()) {
        Draft::Nothing => text.to_owned(),
        Draft::Writes { bytes, .. } => String::from_utf8(bytes).expect("a text"),
        refused => panic!("{refused:?}"),
    }
}

/// The counts of a text under the default policy, summed over its findings.
fn totals(text: &str) -> [u64; 8] {
    Book::new(text.as_bytes(), default_policy())
        .expect("accepted")
        .totals()
}

#[test]
fn a_bad_place_has_the_bytes_of_its_maximal_subpart() {
    let stretches: [(&[u8], usize); 14] = [
        (b"\xE0\x80\x80", 1),
        (b"\xED\xA0\x80", 1),
        (b"\xF4\x90\x80\x80", 1),
        (b"\xF0\x80\x80\x80", 1),
        (b"\xE2\x9D", 2),
        (b"\xE2\x41", 1),
        (b"\xF0\x9F\x98\x41", 3),
        (b"\xF0\x9F\x41", 2),
        (b"\xF4\x8F\xBF", 3),
        (b"\xC2", 1),
        (b"\xC0\x80", 1),
        (b"\xF5\x80", 1),
        (b"\xFF", 1),
        (b"\x80\x80", 1),
    ];
    for (bytes, length) in stretches {
        assert_eq!(utf8::first(bytes), None);
        assert_eq!(repair::stretch(bytes), length, "{bytes:02X?}");
    }
    let (text, number) = repair::repaired(b"a\xF0\x9F\x98A\xE0\x80\xE2\x9D");
    assert_eq!(text, "a\u{FFFD}A\u{FFFD}\u{FFFD}\u{FFFD}".as_bytes());
    assert_eq!(number, 4);
}

#[test]
fn repairing_tests_the_bytes_taken_in_and_then_the_room() {
    let answer =
        |text: &[u8], room: usize| Answer::of_word(Reference.repair(text, &mut vec![0; room]));
    assert_eq!(answer(b"a\xFFb", 5), Answer::new(0, 5 + (1 << 28)));
    assert_eq!(answer(b"a\xFFb", 4), Answer::new(8, 5));
    assert_eq!(answer(b"abc", 3), Answer::new(0, 3));
    assert_eq!(answer(b"abc", 2), Answer::new(8, 3));
    assert_eq!(
        answer(&vec![0xFF; 16_777_216], 0),
        Answer::new(8, 50_331_648)
    );
    assert_eq!(answer(&vec![0xFF; 16_777_217], 0), Answer::new(1, 0));
}

#[test]
fn the_worked_texts_come_out_as_said() {
    #[rustfmt::skip]
    let worked: [(&str, &str, [u64; 8]); 14] = [
        ("", "", [0; 8]),
        ("1\u{FE0E}", "1", [0, 0, 0, 0, 0, 0, 1, 0]),
        ("1\u{20E3}", "1\u{FE0E}\u{20E3}", [0, 0, 0, 0, 0, 0, 0, 1]),
        ("\u{231A}\u{FE0F}", "\u{231A}", [0, 0, 0, 0, 0, 0, 1, 0]),
        ("\u{231A}\u{FE0E}\u{FE0F}", "\u{231A}\u{FE0E}", [1, 0, 0, 0, 0, 0, 0, 0]),
        ("\u{231A}\u{FE0F}\u{FE0E}", "\u{231A}", [1, 0, 0, 0, 0, 0, 1, 0]),
        ("\u{261D}\u{FE0F}\u{1F3FB}", "\u{261D}\u{1F3FB}", [0, 1, 0, 0, 0, 0, 0, 0]),
        ("\u{261D}\u{FE0E}\u{1F3FB}", "\u{261D}\u{FE0E}\u{1F3FB}", [0; 8]),
        ("\u{2764}\u{FE0F}\u{1F3FB}", "\u{2764}\u{1F3FB}", [0, 0, 1, 0, 0, 0, 0, 0]),
        ("\u{2764}\u{FE0E}\u{E0061}", "\u{2764}\u{FE0F}\u{E0061}", [0, 0, 0, 1, 1, 0, 0, 0]),
        ("\u{1F1E6}\u{FE0F}\u{1F1E7}", "\u{1F1E6}\u{1F1E7}", [1, 0, 0, 0, 0, 0, 0, 0]),
        ("\u{231A}\u{200D}\u{200D}\u{231A}", "\u{231A}\u{200D}\u{200D}\u{231A}", [0; 8]),
        ("a\u{FE0F}", "a", [1, 0, 0, 0, 0, 0, 0, 0]),
        ("\u{20E3}", "\u{20E3}", [0; 8]),
    ];
    for (number, (text, expected, counts)) in (1..).zip(worked) {
        assert_eq!(formatted(text), expected, "text {number}");
        assert_eq!(totals(text), counts, "text {number}");
    }
}

#[test]
fn items_have_the_spans_kinds_and_tag_reports_said() {
    let numbers = |text: &str| numbers(&scan(text.as_bytes()));
    let rows = |text: &str| -> Vec<u64> {
        let numbers = numbers(text);
        let rows = numbers.chunks(8);
        rows.flat_map(|row| &row[..4]).copied().collect()
    };
    assert_eq!(rows(""), []);
    let twelve = rows("\u{231A}\u{200D}\u{200D}\u{231A}");
    assert_eq!(twelve, [0, 9, 3, 1, 9, 12, 3, 1]);
    assert_eq!(rows("\u{20E3}"), [0, 3, 0, 1]);
    assert_eq!(
        rows("a\u{FE0F}\u{FE0E}\u{200D}"),
        [0, 1, 0, 1, 1, 7, 1, 1, 7, 10, 2, 1]
    );
    // Two tag modifications, of which the first is not complete.
    let text = "\u{231A}\u{E0061}\u{FE0F}\u{E0062}\u{1F3FB}\u{E007F}";
    assert_eq!(rows(text), [0, text.len() as u64, 3, 0]);
    let text = "\u{231A}\u{E0061}\u{FE0F}\u{E007F}\u{FE0F}";
    assert_eq!(rows(text), [0, text.len() as u64, 3, 1]);
    // Tags after a link are passthrough.
    assert_eq!(rows("\u{200D}\u{E0061}"), [0, 3, 2, 1, 3, 7, 0, 1]);
    assert_eq!(rows("\u{200D}\u{E007F}"), [0, 3, 2, 1, 3, 7, 0, 1]);
    // Characters first, and two units for a character above FFFF.
    let twice = [0, 3, 2, 1, 0, 1, 0, 1, 3, 7, 0, 1, 1, 2, 1, 3];
    assert_eq!(numbers("\u{200D}\u{E0061}"), twice);
}

#[test]
fn tags_are_complete_as_document_02_says() {
    let report = |text: &str| {
        let row = numbers(&scan(text.as_bytes()));
        assert_eq!(row[..3], [0, text.len() as u64, 3], "{text:?}");
        row[3..4].to_vec()
    };
    let complete = [
        "\u{1F3F4}",
        "\u{1F3F4}\u{E0020}\u{E007F}",
        "\u{1F3F4}\u{E007E}\u{E0020}\u{E007F}",
        "\u{1F3F4}\u{E0061}\u{FE0F}\u{E007F}",
        "\u{1F3F4}\u{E0061}\u{E007F}\u{20E3}\u{E0062}\u{E007F}",
    ];
    let broken = [
        "\u{1F1E6}\u{1F1E7}\u{E007F}",
        "\u{1F3F4}\u{E007F}",
        "\u{1F3F4}\u{FE0F}\u{E007F}\u{FE0F}",
        "\u{1F3F4}\u{E007F}\u{E007F}",
        "\u{1F3F4}\u{E007F}\u{E0061}",
        "\u{1F3F4}\u{E007F}\u{E0061}\u{E007F}",
        "\u{1F3F4}\u{E0061}\u{E007F}\u{E007F}",
        "\u{1F3F4}\u{E0061}\u{E007F}\u{E0061}\u{E007F}",
        "\u{1F3F4}\u{E0061}\u{20E3}\u{E007F}",
        "\u{1F3F4}\u{E0061}\u{E007F}\u{200D}\u{1F3F4}\u{E007F}",
    ];
    for text in complete {
        assert_eq!(report(text), [1], "{text:?}");
    }
    for text in broken {
        assert_eq!(report(text), [0], "{text:?}");
    }
}

#[test]
fn a_well_formed_beginning_is_as_the_standard_library_has_it() {
    let alphabet = Alphabet::new();
    let mut random = Random::from_seed(3);
    for _ in 0..50_000 {
        let text = alphabet.damaged(&mut random);
        let expected = str::from_utf8(&text).map_or_else(|error| error.valid_up_to(), str::len);
        assert_eq!(utf8::well_formed_beginning(&text), expected, "{text:02X?}");
    }
    // Every two bytes, with tails after them.
    for lead in 0..=u16::MAX {
        let [first, second] = lead.to_be_bytes();
        let text = [first, second, 0x80, 0x80];
        let expected = str::from_utf8(&text).map_or_else(|error| error.valid_up_to(), str::len);
        assert_eq!(utf8::well_formed_beginning(&text), expected, "{text:02X?}");
    }
}

#[test]
fn refusals_come_in_their_order() {
    let policy = default_policy();
    let finding = "1\u{20E3}".as_bytes();
    let long = vec![0xFF; 16_777_217];
    let refused = |number, value| Draft::Refused(Answer::new(number, value));
    assert_eq!(format(&long, &[]), refused(1, 0));
    assert_eq!(scan(&long), refused(1, 0));
    assert_eq!(list(&[0xFF], &policy[1..]), refused(2, 0));
    assert_eq!(mend(b"ab\xED\xA0\x80", policy, 9, &[7]), refused(3, 2));
    assert_eq!(mend(finding, policy, 1, &[7]), refused(4, 0));
    assert_eq!(mend(finding, policy, 0, &[7, 7]), refused(5, 1));
    assert_eq!(mend(finding, policy, 0, &[]), refused(5, 1));
    assert_eq!(mend(finding, policy, 0, &[2]), refused(6, 0));
    assert_eq!(
        list(finding, policy).with_room(111),
        (Answer::new(7, 1), &[][..])
    );
    let mended = mend(finding, policy, 0, &[1]);
    assert_eq!(mended.with_room(6), (Answer::new(8, 7), &[][..]));
    let written = "1\u{FE0F}\u{20E3}".as_bytes();
    assert_eq!(mended.with_room(7), (Answer::new(0, 7), written));
    assert_eq!(
        format(b"abc", policy).with_room(0),
        (Answer::NOTHING, &[][..])
    );
}

#[test]
fn policies_are_bytes_of_the_right_number_and_version_without_unused_bits() {
    assert_eq!((policy::words(), policy::bytes()), (6, POLICY_BYTES));
    assert_eq!(policy::version(), 15 * 256);
    let refusal = |bytes: &[u8]| {
        policy::Policy::read(bytes)
            .err()
            .map(|answer| answer.number)
    };
    assert_eq!(refusal(default_policy()), None);
    for length in [0, 8, 192, 199, 201] {
        assert_eq!(refusal(&vec![0; length]), Some(2));
    }
    for bit in 0..8 * POLICY_BYTES {
        let mut bytes = policy::empty();
        bytes[bit / 8] ^= 1 << (bit % 8);
        let expected = match bit {
            0..64 => Some(15),
            _ if (bit - 64) % 384 >= characters::entries() => Some(2),
            _ => None,
        };
        assert_eq!(refusal(&bytes), expected, "bit {bit}");
        // The version is tested before the unused bits.
        bytes[0] = 1;
        assert_eq!(refusal(&bytes), Some(15), "bit {bit}");
    }
}

#[test]
fn the_filed_text_is_the_message_or_the_front_of_the_buffer() {
    assert_eq!(filed(b"message", b"buffer", None), b"message");
    assert_eq!(filed(b"message", b"buffer", Some(3)), b"buf");
    assert_eq!(filed(b"message", b"buffer", Some(6)), b"buffer");
    assert_eq!(filed(b"message", b"buffer", Some(u64::MAX)), b"buffer");
}

#[test]
fn the_programs_write_what_the_example_has() {
    let input = "1\u{FE0E} \u{2764}".as_bytes();
    let expected = "0 4 0 0 0 0 0 0 1 0\n5 8 0 0 0 0 0 0 0 1\ntotal 0 0 0 0 0 0 1 1\n";
    assert_eq!(programs::report(input), expected.as_bytes());
    assert_eq!(programs::formatted(input), "1 \u{2764}\u{FE0E}".as_bytes());
    assert_eq!(programs::report(b""), b"total 0 0 0 0 0 0 0 0\n");
    assert_eq!(programs::formatted(b"a\xC0"), b"refused 3 1\n");
    assert_eq!(programs::report(b"\xC0"), b"refused 3 0\n");
    assert_eq!(programs::report(&[b'a'; 12_289]), b"refused 1\n");
    assert_ne!(programs::report(&[b'a'; 12_288]), b"refused 1\n");
    assert_eq!(programs::formatted(&[b'a'; 16_385]), b"refused 1\n");
    assert_eq!(programs::formatted(&[b'a'; 16_384]), [b'a'; 16_384]);
}

#[test]
fn a_place_may_be_taken_over_by_the_next_finding() {
    // Mending the selector at 0 moves the heart to 0.
    let text = "\u{FE0F}\u{2764}".as_bytes();
    let mut book = Book::new(text, default_policy()).expect("accepted");
    assert_eq!(book.open(), [(0, vec![]), (3, vec![0])]);
    book.note(0, &[], 3);
    assert_eq!(book.open(), [(0, vec![0])]);
    assert_eq!(book.text(), "\u{2764}".as_bytes());
    book.note(3, &[0], 6);
    book.note(0, &[1], 5);
    assert_eq!(book.open().len(), 1);
    book.note(0, &[1], 6);
    assert_eq!(book.text(), "\u{2764}\u{FE0F}".as_bytes());
    assert_eq!((book.open().len(), book.table().len()), (0, 0));
}

/// `text_case::check` holds the reading to the crate too: spans, kinds, counts, defaults, replacements, formatted text.
#[test]
fn every_short_text_is_as_the_crate_has_it() {
    let characters = Alphabet::new().one_of_each();
    assert!(characters.len() >= 15, "{characters:?}");
    let policies = policies::accepted(&mut Random::from_seed(5));
    for length in 0..=3 {
        let checked = every_text(&characters, length, |text| {
            policies.iter().try_for_each(|policy| {
                text_case::check(&Reference, text.as_bytes(), policy)
                    .map_err(|difference| (text.to_owned(), difference))
            })
        });
        checked.unwrap_or_else(|(text, difference)| panic!("{text:?}\n{difference}"));
    }
}

#[test]
fn drawn_texts_and_lists_are_as_the_crate_has_them() {
    let alphabet = Alphabet::new();
    let mut random = Random::from_seed(7);
    for _ in 0..5_000 {
        let policy = policies::drawn(&mut random);
        let text = alphabet.drawn(&mut random);
        let calls = list_case::drawn(&mut random, &text, &policy);
        let checked = text_case::check(&Reference, &text, &policy)
            .and_then(|()| list_case::check(&Reference, &text, &policy, &calls));
        checked.unwrap_or_else(|difference| panic!("{text:02X?}\n{difference}"));
    }
}

#[test]
fn formatting_again_changes_nothing() {
    let alphabet = Alphabet::new();
    let mut random = Random::from_seed(11);
    let policy = Policy::default_policy();
    let mut changed = 0;
    for _ in 0..5_000 {
        let text = alphabet.drawn(&mut random);
        if let Draft::Writes { bytes, .. } = format(&text, &policy.bytes) {
            changed += 1;
            assert_eq!(format(&bytes, &policy.bytes), Draft::Nothing, "{text:02X?}");
            assert!(2 * bytes.len() <= 5 * text.len());
        }
    }
    assert!(changed > 1_000);
}

#[test]
fn a_flip_is_listed_where_it_alters_the_text() {
    let row = |code_point, keycap, as_text| [code_point, keycap, as_text];
    for (text, expected) in [
        ("", vec![]),
        ("a", vec![]),
        // Under the default policy 31 is bare as text: only a flip of `prefer_bare` alters it.
        ("1", vec![row(0x31, 0, 0)]),
        ("1\u{FE0E}", vec![row(0x31, 0, 0), row(0x31, 0, 1)]),
        // FE0F stays in both cases, unless bare means emoji.
        ("1\u{FE0F}", vec![row(0x31, 0, 1)]),
        ("1\u{20E3}", vec![row(0x31, 1, 0), row(0x31, 1, 1)]),
        ("\u{2764}", vec![row(0x2764, 0, 0), row(0x2764, 0, 1)]),
        ("\u{2764}\u{1F3FB}", vec![]),
        ("\u{2764}\u{E0061}", vec![]),
        (
            "\u{2764}1\u{20E3}1",
            vec![
                row(0x31, 0, 0),
                row(0x31, 1, 0),
                row(0x31, 1, 1),
                row(0x2764, 0, 0),
                row(0x2764, 0, 1),
            ],
        ),
    ] {
        let listed = numbers(&tips::list(text.as_bytes(), default_policy()));
        assert_eq!(listed, expected.concat(), "{text:?}");
    }
}

#[test]
fn the_flips_are_those_of_the_crate_by_all_memberships() {
    let mut random = Random::new();
    let alphabet = Alphabet::new();
    for _ in 0..20 {
        let text = alphabet.drawn(&mut random);
        let policy = policies::drawn(&mut random);
        assert_eq!(tip_case::check(&Reference, &text, &policy, true), Ok(()));
    }
    assert_eq!(Membership::all().count(), 1416);
}

#[test]
fn a_variation_entry_is_told_by_its_number() {
    assert_eq!(Reference.variation_entry(0), 0x23);
    assert_eq!(Reference.variation_entry(353), 0x1_F6F3);
    assert_eq!(Reference.variation_entry(354), Answer::NOTHING.word());
    assert_eq!(Reference.variation_entry(u64::MAX), Answer::NOTHING.word());
}
