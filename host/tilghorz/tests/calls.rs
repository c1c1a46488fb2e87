//! The safe functions give what document 01 says, and what the proved programs wrote.

use std::borrow::Cow;
use std::fs;
use std::ops::{Bound, Range};
use std::path::Path;

use tilghorz::{
    Counts, Finding, Formatted, Item, ItemKind, LONGEST_TEXT, Policy, Presentation, Refusal,
    RepairedLen,
};

/// The greatest number of bytes that the program `format` reads, and that the program `report` reads.
const LONGEST_TO_FORMAT: usize = 16_384;
const LONGEST_TO_REPORT: usize = 12_288;

/// What becomes of a text under the default policy.
fn formatted(text: &str) -> Cow<'_, str> {
    let policy = Policy::default();
    let formatted = tilghorz::format_str(text, &policy).expect("a text");
    let bytes = tilghorz::format(text.as_bytes(), &policy).expect("a text");
    assert_eq!(bytes, formatted.as_bytes());
    let borrowed = [
        matches!(bytes, Cow::Borrowed(_)),
        matches!(formatted, Cow::Borrowed(_)),
    ];
    assert_eq!(borrowed, [text == formatted; 2]);
    formatted
}

/// The totals of a text under the default policy.
fn totals(text: &str) -> Counts {
    let findings = tilghorz::findings(text.as_bytes(), &Policy::default());
    findings.expect("a text").totals()
}

/// Counts, by the names that are not 0.
fn counts(named: &[&str]) -> [usize; 8] {
    Counts::NAMES.map(|name| named.iter().filter(|other| **other == name).count())
}

/// Each text of document 01's list with a formatted text, and its counts.
#[test]
fn the_worked_texts_come_out() {
    for (text, expected, named) in [
        ("", "", &[][..]),
        ("1\u{FE0E}", "1", &["policy-redundant"]),
        ("1\u{20E3}", "1\u{FE0E}\u{20E3}", &["decisions"]),
        ("\u{231A}\u{FE0F}", "\u{231A}", &["policy-redundant"]),
        (
            "\u{231A}\u{FE0E}\u{FE0F}",
            "\u{231A}\u{FE0E}",
            &["unsanctioned"],
        ),
        (
            "\u{231A}\u{FE0F}\u{FE0E}",
            "\u{231A}",
            &["policy-redundant", "unsanctioned"],
        ),
        (
            "\u{261D}\u{FE0F}\u{1F3FB}",
            "\u{261D}\u{1F3FB}",
            &["modifier-defective"],
        ),
        (
            "\u{261D}\u{FE0E}\u{1F3FB}",
            "\u{261D}\u{FE0E}\u{1F3FB}",
            &[],
        ),
        (
            "\u{2764}\u{FE0F}\u{1F3FB}",
            "\u{2764}\u{1F3FB}",
            &["additional-defective"],
        ),
        (
            "\u{2764}\u{FE0E}\u{E0061}",
            "\u{2764}\u{FE0F}\u{E0061}",
            &["tag-conflicting", "tag-forced"],
        ),
        (
            "\u{1F1E6}\u{FE0F}\u{1F1E7}",
            "\u{1F1E6}\u{1F1E7}",
            &["unsanctioned"],
        ),
        ("a\u{FE0F}", "a", &["unsanctioned"]),
        ("\u{20E3}", "\u{20E3}", &[]),
    ] {
        assert_eq!(formatted(text), expected);
        assert_eq!(
            matches!(formatted(text), Cow::Borrowed(_)),
            named.is_empty()
        );
        assert_eq!(totals(text).numbers(), counts(named), "{text:?}");
    }
}

#[test]
fn items_tile_the_text() {
    let text = "a\u{231A}\u{200D}\u{200D}\u{231A}\u{E0061}b\u{FE0F}";
    let items = tilghorz::items(text.as_bytes()).expect("a text");
    let row = |item: Item| {
        let spans = [item.span(), item.char_span(), item.utf16_span()];
        (spans, item.kind, item.tags_complete)
    };
    let expected = [
        ([0..1, 0..1, 0..1], ItemKind::Passthrough, true),
        ([1..10, 1..4, 1..4], ItemKind::EmojiHeaded, true),
        ([10..17, 4..6, 4..7], ItemKind::EmojiHeaded, false),
        ([17..18, 6..7, 7..8], ItemKind::Passthrough, true),
        ([18..21, 7..8, 8..9], ItemKind::UnsanctionedSelectors, true),
    ];
    assert!(items.iter().map(row).eq(expected), "{items:?}");
}

#[test]
fn spans_are_counted_three_times() {
    let text = "a\u{E9}\u{1F600}\u{FE0E} \u{2764}\u{1F600}\u{FE0F}b\u{231A}\u{FE0F}";
    let units: Vec<u16> = text.encode_utf16().collect();
    let holds = |span: Range<usize>, chars: Range<usize>, utf16: Range<usize>| {
        let part = &text[span];
        assert!(
            part.chars()
                .eq(text.chars().skip(chars.start).take(chars.len()))
        );
        assert!(part.encode_utf16().eq(units[utf16].iter().copied()));
    };
    let items = tilghorz::items(text.as_bytes()).expect("a text");
    for item in &items {
        holds(item.span(), item.char_span(), item.utf16_span());
    }
    let findings = tilghorz::findings(text.as_bytes(), &Policy::default()).expect("a text");
    assert_eq!(findings.iter().count(), 4);
    for finding in &findings {
        holds(finding.span(), finding.char_span(), finding.utf16_span());
    }
}

#[test]
fn tags_are_complete_by_their_whole_shape() {
    let complete = |text: &str| {
        let items = tilghorz::items(text.as_bytes()).expect("a text");
        items.iter().all(|item| item.tags_complete)
    };
    assert!(complete("\u{1F3F4}\u{E0067}\u{FE0F}\u{E007F}"));
    assert!(complete("\u{E007F}"));
    assert!(!complete("\u{1F1E6}\u{1F1E7}\u{E007F}"));
    assert!(!complete("\u{1F3F4}\u{E0067}\u{E007F}\u{E007F}"));
}

#[test]
fn mending_takes_the_decisions() {
    let policy = Policy::default();
    let text = "1\u{FE0E} \u{2764}".as_bytes();
    let mended =
        |offset, decisions: &[Presentation]| tilghorz::mend(text, &policy, offset, decisions);
    let text_of = |text: &str| Ok(text.as_bytes().to_vec());
    assert_eq!(mended(0, &[]), text_of("1 \u{2764}"));
    assert_eq!(
        mended(5, &[Presentation::Text]),
        text_of("1\u{FE0E} \u{2764}\u{FE0E}")
    );
    assert_eq!(
        mended(5, &[Presentation::Emoji]),
        text_of("1\u{FE0E} \u{2764}\u{FE0F}")
    );
    assert_eq!(
        mended(5, &[]),
        Err(Refusal::WrongNumberOfDecisions { wanted: 1 })
    );
    assert_eq!(
        mended(0, &[Presentation::Text]),
        Err(Refusal::WrongNumberOfDecisions { wanted: 0 })
    );
    assert_eq!(mended(1, &[]), Err(Refusal::NoFinding));
    assert_eq!(mended(usize::MAX, &[]), Err(Refusal::NoFinding));
}

/// Document 01: "one decision, with that default". Under this policy a heart is text by default, and other bases are emoji.
#[test]
fn mending_with_the_default_decisions_formats_a_finding() {
    let hearts = Policy::from_sheet(b"30-39\n\n2764\n\n").expect("a sheet");
    let text = "a \u{2764}\u{200D}\u{A9}\u{FE0F}\u{FE0F}\u{200D}\u{231A} 1\u{FE0F} \u{2764}";
    let decisions = |offset| tilghorz::default_decisions(text.as_bytes(), &hearts, offset);
    let (as_text, as_emoji) = (Presentation::Text, Presentation::Emoji);
    assert_eq!(decisions(2), Ok(vec![as_text, as_emoji]));
    assert_eq!(decisions(23), Ok(vec![]));
    assert_eq!(decisions(28), Ok(vec![as_text]));
    for offset in [0, 3, 22, 24, 31, usize::MAX] {
        assert_eq!(decisions(offset), Err(Refusal::NoFinding));
    }
    let damaged = tilghorz::default_decisions(b"\xFF", &hearts, 0);
    assert_eq!(damaged, Err(Refusal::NotWellFormed { valid_up_to: 0 }));

    let path = Path::new(env!("CARGO_MANIFEST_DIR")).join("../../tests/programs/thread.in");
    let thread = fs::read(path).expect("a stored run");
    for policy in [&Policy::default(), &hearts] {
        for finding in tilghorz::findings(&thread, policy).expect("a text") {
            let decisions = tilghorz::default_decisions(&thread, policy, finding.start);
            let decisions = decisions.expect("a finding");
            assert_eq!(decisions.len(), finding.counts.decisions);
            let item = &thread[finding.span()];
            let mended = tilghorz::mend(item, policy, 0, &decisions).expect("a finding");
            assert_eq!(mended, *tilghorz::format(item, policy).expect("a text"));
        }
    }
}

#[test]
fn a_stretch_is_any_range() {
    let (text, policy) = ("1\u{FE0E} \u{2764}".as_bytes(), Policy::default());
    let all = tilghorz::findings(text, &policy).expect("a text");
    let around = |stretch: (Bound<usize>, Bound<usize>)| {
        let around = tilghorz::around(text, &policy, stretch).expect("a text");
        (around.inside.len(), around.sharing.len())
    };
    let whole = tilghorz::around(text, &policy, ..).expect("a text");
    assert_eq!((whole.inside, whole.sharing.len()), (all, 0));
    assert_eq!(
        tilghorz::around(text, &policy, 5..=7),
        tilghorz::around(text, &policy, 5..8)
    );
    assert_eq!(around((Bound::Excluded(4), Bound::Included(7))), (1, 0));
    assert_eq!(around((Bound::Excluded(5), Bound::Included(7))), (0, 1));
    assert_eq!(
        around((Bound::Excluded(usize::MAX), Bound::Unbounded)),
        (0, 0)
    );
    assert_eq!(
        around((Bound::Included(0), Bound::Included(usize::MAX))),
        (2, 0)
    );
    assert_eq!(around((Bound::Included(7), Bound::Excluded(2))), (0, 0));
}

#[test]
fn refusals_leave_the_callers_buffer() {
    let policy = Policy::default();
    let text = "\u{2764}".as_bytes();
    let mut out = [0xA5; 5];
    let too_short = Err(Refusal::OutputTooShort { wanted: 6 });
    assert_eq!(tilghorz::format_into(text, &policy, &mut out), too_short);
    let too_short = Err(Refusal::OutputTooShort { wanted: 6 });
    let emoji = &[Presentation::Emoji][..];
    let mended = tilghorz::mend_into(text, &policy, 0, emoji, &mut out);
    assert_eq!(mended, too_short);
    // Of the decisions of this library, none is above 1. The linked one refuses such a byte by 6.
    let word = tilghorz::sys::mend(text, policy.as_bytes(), 0, &[2], &mut out);
    assert_eq!(word, 6 << 56);
    let damaged = Err(Refusal::NotWellFormed { valid_up_to: 3 });
    assert_eq!(
        tilghorz::format_into(b"\xE2\x9D\xA4\xE2\x9D", &policy, &mut out),
        damaged
    );
    assert_eq!(out, [0xA5; 5]);
    let mut out = [0xA5; 8];
    let mended = tilghorz::mend_into(text, &policy, 0, emoji, &mut out);
    assert_eq!(mended, Ok(6));
    assert_eq!(out, [0xE2, 0x9D, 0xA4, 0xEF, 0xB8, 0x8F, 0xA5, 0xA5]);
    assert_eq!(
        tilghorz::format_into(b"a", &policy, &mut []),
        Ok(Formatted::Unchanged)
    );
}

#[test]
fn the_limit_of_a_text_is_16_777_216_bytes() {
    let policy = Policy::default();
    let text = vec![b'a'; LONGEST_TEXT + 1];
    assert_eq!(tilghorz::format(&text, &policy), Err(Refusal::TextTooLong));
    assert_eq!(
        tilghorz::findings(&text, &policy).err(),
        Some(Refusal::TextTooLong)
    );
    assert_eq!(tilghorz::items(&text).err(), Some(Refusal::TextTooLong));
    assert_eq!(
        tilghorz::mend(&text, &policy, 0, &[]),
        Err(Refusal::TextTooLong)
    );
    let whole = tilghorz::format(&text[1..], &policy).expect("a text");
    assert!(matches!(whole, Cow::Borrowed(_)));
}

/// The room that a table gets at first is not enough for these.
#[test]
fn results_of_any_length_find_room() {
    let policy = Policy::default();
    let text = "\u{A9}".repeat(100_000);
    let findings = tilghorz::findings(text.as_bytes(), &policy).expect("a text");
    assert_eq!(findings.len(), 100_000);
    let last = findings.get(99_999).expect("a finding");
    let one = Counts {
        decisions: 1,
        ..Counts::default()
    };
    assert_eq!((last.span(), last.counts), (199_998..200_000, one));
    let others = (last.char_span(), last.utf16_span());
    assert_eq!(others, (99_999..100_000, 99_999..100_000));
    assert_eq!(findings.totals().decisions, 100_000);
    assert_eq!(formatted(&text), "\u{A9}\u{FE0E}".repeat(100_000));
    assert_eq!(
        tilghorz::items(text.as_bytes()).expect("a text").len(),
        100_000
    );
}

/// Document 02, (vii): under the default policy five halves of the text's length are enough, and the copyright sign takes
/// all of them. Under the empty policy a digit takes four times its length.
#[test]
fn the_room_of_a_formatted_text_is_reached() {
    let default = Policy::default();
    assert!(default.is_default());
    let sign = "\u{A9}".as_bytes();
    let mut out = [0; 5];
    assert_eq!(
        tilghorz::format_into(sign, &default, &mut out),
        Ok(Formatted::Changed { len: 5 })
    );
    assert_eq!(
        tilghorz::format_into(sign, &default, &mut out[..4]),
        Err(Refusal::OutputTooShort { wanted: 5 })
    );
    let empty = Policy::from_sheet(b"\n\n\n\n").expect("a sheet");
    assert!(!empty.is_default());
    assert_eq!(
        *tilghorz::format(b"1", &empty).expect("a text"),
        *"1\u{FE0F}".as_bytes()
    );
    assert_eq!(
        tilghorz::format_into(b"1", &empty, &mut [0; 3]),
        Err(Refusal::OutputTooShort { wanted: 4 })
    );
}

#[test]
fn the_filed_text_is_the_message_or_the_front_of_the_buffer() {
    let (message, buffer) = (&b"message"[..], &b"buffer"[..]);
    let filed = |formatted| tilghorz::filed(message, buffer, formatted);
    assert_eq!(filed(Formatted::Unchanged), message);
    for len in 0..=buffer.len() {
        assert_eq!(filed(Formatted::Changed { len }), &buffer[..len]);
    }
    for len in [7, usize::MAX] {
        assert_eq!(filed(Formatted::Changed { len }), buffer);
    }
}

/// The program `format` writes what the proved `filed_text` gives, the program `report` writes the findings, and
/// `tests/programs` has their stored runs.
#[test]
fn the_stored_runs_of_the_proved_programs_are_met() {
    let policy = Policy::default();
    let folder = Path::new(env!("CARGO_MANIFEST_DIR")).join("../../tests/programs");
    let mut runs = 0;
    for entry in fs::read_dir(folder).expect("the stored runs") {
        let path = entry.expect("a stored run").path();
        if path.extension().is_none_or(|extension| extension != "in") {
            continue;
        }
        runs += 1;
        let stored = |extension| fs::read(path.with_extension(extension)).expect("a stored run");
        let message = stored("in");
        if message.len() <= LONGEST_TO_REPORT {
            assert!(
                report(&message, &policy) == stored("report"),
                "{}",
                path.display()
            );
        }
        if message.len() > LONGEST_TO_FORMAT {
            continue;
        }
        let mut buffer = vec![0; 5 * message.len() / 2];
        let filed = match tilghorz::format_into(&message, &policy, &mut buffer) {
            Ok(formatted) => tilghorz::filed(&message, &buffer, formatted).to_vec(),
            Err(refusal) => refusal_line(refusal),
        };
        assert!(filed == stored("format"), "{}", path.display());
    }
    assert!(runs > 5, "{runs} stored runs");
}

/// The bytes of a finding are an item of their own.
#[test]
fn formatting_each_finding_alone_formats_the_text() {
    let policy = Policy::default();
    let path = Path::new(env!("CARGO_MANIFEST_DIR")).join("../../tests/programs/thread.in");
    let text = fs::read(path).expect("a stored run");
    let (mut pieces, mut end) = (Vec::<u8>::new(), 0);
    for finding in tilghorz::findings(&text, &policy).expect("a text") {
        pieces.extend(&text[end..finding.start]);
        pieces.extend(&*tilghorz::format(&text[finding.span()], &policy).expect("a text"));
        end = finding.end;
    }
    pieces.extend(&text[end..]);
    assert!(pieces == *tilghorz::format(&text, &policy).expect("a text"));
}

/// The program's lines on a message.
fn report(message: &[u8], policy: &Policy) -> Vec<u8> {
    let findings = match tilghorz::findings(message, policy) {
        Ok(findings) => findings,
        Err(refusal) => return refusal_line(refusal),
    };
    let line = |numbers: &[usize]| {
        let numbers: Vec<String> = numbers.iter().map(usize::to_string).collect();
        numbers.join(" ")
    };
    let row = |finding: Finding| {
        let span = [finding.start, finding.end];
        line(&[&span[..], &finding.counts.numbers()].concat()) + "\n"
    };
    let totals = format!("total {}\n", line(&findings.totals().numbers()));
    let lines: Vec<String> = findings.iter().map(row).chain([totals]).collect();
    lines.concat().into_bytes()
}

/// The program's line on a refusal.
fn refusal_line(refusal: Refusal) -> Vec<u8> {
    let value = refusal
        .value()
        .map_or(String::new(), |value| format!(" {value}"));
    format!("refused {}{value}\n", refusal.number()).into_bytes()
}

#[test]
fn a_text_is_borrowed_where_nothing_is_replaced() {
    for text in ["", "plain", "\u{2764}\u{FE0F}\u{FFFD}"] {
        let repaired = tilghorz::repair(text.as_bytes()).expect("a text");
        assert_eq!(repaired.replaced, 0);
        assert!(matches!(repaired.text, Cow::Borrowed(bytes) if bytes == text.as_bytes()));
    }
}

#[test]
fn bad_places_are_replaced_and_counted() {
    let damaged = b"a\xF0\x9F\x98A\xE0\x80\xE2\x9D";
    let repaired = tilghorz::repair(damaged).expect("a text");
    assert_eq!(repaired.replaced, 4);
    assert_eq!(&*repaired.text, String::from_utf8_lossy(damaged).as_bytes());
    assert!(matches!(repaired.text, Cow::Owned(_)));
    // Formatting after it is formatting the repaired text.
    let policy = Policy::default();
    let damaged = b"\xFF1\xEF\xB8\x8E";
    assert!(tilghorz::format(damaged, &policy).is_err());
    let repaired = tilghorz::repair(damaged).expect("a text").text;
    let formatted = tilghorz::format(&repaired, &policy).expect("a text");
    assert_eq!(&*formatted, "\u{FFFD}1".as_bytes());
}

#[test]
fn repairing_tests_the_length_and_then_the_room() {
    let mut out = [7; 6];
    let short = Err(Refusal::OutputTooShort { wanted: 5 });
    assert_eq!(tilghorz::repair_into(b"a\xFFb", &mut out[..4]), short);
    assert_eq!(out, [7; 6]);
    let done = RepairedLen {
        len: 5,
        replaced: 1,
    };
    assert_eq!(tilghorz::repair_into(b"a\xFFb", &mut out), Ok(done));
    assert_eq!(out, *b"a\xEF\xBF\xBDb\x07");
    let longest = vec![0xFF; LONGEST_TEXT + 1];
    assert_eq!(tilghorz::repair(&longest), Err(Refusal::TextTooLong));
    // Within the limit, and past it when it is repaired.
    let repaired = tilghorz::repair(&longest[1..]).expect("a text");
    assert_eq!(repaired.replaced, LONGEST_TEXT);
    assert_eq!(repaired.text.len(), 3 * LONGEST_TEXT);
    let refused = tilghorz::format(&repaired.text, &Policy::default());
    assert_eq!(refused, Err(Refusal::TextTooLong));
}
