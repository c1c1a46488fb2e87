//! The comparison itself: it finds nothing in the reading of document 01, and every planted fault.

use std::path::{Path, PathBuf};
use std::{env, fs, process};

use tilghorz_comparison::Random;
use tilghorz_comparison::calls::{Calls, Reference};
use tilghorz_comparison::comparison::command::{Command, Planted};
use tilghorz_comparison::comparison::faults::{FAULTS, Fault};
use tilghorz_comparison::comparison::faulty::Faulty;
use tilghorz_comparison::comparison::feed_case::{self, Step};
use tilghorz_comparison::comparison::lent::lend;
use tilghorz_comparison::comparison::policies::Policy;
use tilghorz_comparison::comparison::programs::{Programs, written};
use tilghorz_comparison::comparison::published::{LISTS, forms, line_texts, texts};
use tilghorz_comparison::comparison::reduce::{characters, reduced, reduced_text};
use tilghorz_comparison::comparison::run::{Options, run};
use tilghorz_comparison::comparison::{feed_lists, limits, repair_case, text_case};
use tilghorz_comparison::reference::calls::{Draft, LONGEST_TEXT};

/// A short run.
const SHORT: Options = Options {
    cases: 300,
    seconds: 60,
    seed: 1,
    length: 2,
    sheets: 4,
    limits: false,
    published: false,
};

/// The faults that show at a limit alone, with the length of a text in which they do.
const AT_LIMITS: [(Fault, usize); 2] = [
    (Fault::LimitTooLow, LONGEST_TEXT),
    (Fault::LimitTooHigh, LONGEST_TEXT + 1),
];

/// What a run prints, and whether there was no difference.
fn printed(calls: &dyn Calls, options: &Options) -> (bool, String) {
    let mut out = Vec::new();
    let is_same = run(calls, options, &mut out).expect("printed");
    (is_same, String::from_utf8(out).expect("a text"))
}

#[test]
fn the_reference_has_no_difference_from_itself() {
    let (is_same, text) = printed(&Reference, &SHORT);
    assert!(is_same, "{text}");
    let kinds = [
        "tables",
        "repair",
        "every text",
        "random",
        "damaged",
        "repaired",
        "lists",
        "feeds",
        "sheets",
        "carries",
        "tips",
        "stores",
    ];
    for kind in kinds {
        assert!(text.lines().any(|line| line.starts_with(kind)), "{text}");
    }
    assert!(text.ends_with("no difference\n"), "{text}");
}

#[test]
fn every_planted_fault_is_reported() {
    for (name, fault) in FAULTS {
        let shows_at_limit = AT_LIMITS.iter().any(|(at_limit, _)| *at_limit == fault);
        let of_long_ones = [Fault::LimitOnRepaired, Fault::LimitWithoutUnfinished];
        if shows_at_limit || of_long_ones.contains(&fault) {
            continue;
        }
        let (is_same, text) = printed(&Faulty::new(&Reference, fault), &SHORT);
        assert!(!is_same, "{name} is not reported:\n{text}");
        let report = text.split_once("difference in ").expect("a report").1;
        for line in ["call", "expected", "found"] {
            assert!(report.contains(&format!("\n  {line} ")), "{name}: {text}");
        }
    }
}

#[test]
fn faults_at_limits_are_found_in_texts_of_those_lengths() {
    let mut random = Random::new();
    for (fault, length) in AT_LIMITS {
        assert!(limits::lengths().contains(&length));
        let (text, policy) = limits::cases(length, &mut random).swap_remove(0);
        assert_eq!(text.len(), length);
        assert_eq!(text_case::check(&Reference, &text, &policy), Ok(()));
        assert!(text_case::check(&Faulty::new(&Reference, fault), &text, &policy).is_err());
    }
}

#[test]
fn a_limit_on_the_repaired_text_is_found_in_a_text_that_grows_past_it() {
    let [bad, _] = repair_case::around_limit(LONGEST_TEXT);
    assert_eq!(repair_case::check(&Reference, &bad), Ok(()));
    let faulty = Faulty::new(&Reference, Fault::LimitOnRepaired);
    assert!(repair_case::check(&faulty, &bad).is_err());
}

#[test]
fn a_limit_without_unfinished_bytes_is_found_in_a_thread_that_reaches_it_by_them() {
    let policy = Policy::default_policy();
    let [_, _, unfinished] = feed_lists::around_limit();
    assert_eq!(feed_case::check(&Reference, &policy, &unfinished), Ok(()));
    let faulty = Faulty::new(&Reference, Fault::LimitWithoutUnfinished);
    assert!(feed_case::check(&faulty, &policy, &unfinished).is_err());
}

#[test]
fn a_thread_is_cut_where_a_bit_is_set() {
    let cut = |bits| feed_lists::cut(b"abc", bits);
    let pieces = |pieces: &[&[u8]]| {
        let pieces = pieces.iter().map(|piece| Step::piece(piece));
        pieces.chain([Step::END]).collect::<Vec<Step>>()
    };
    assert_eq!(cut(0b00), pieces(&[b"abc"]));
    assert_eq!(cut(0b01), pieces(&[b"a", b"bc"]));
    assert_eq!(cut(0b10), pieces(&[b"ab", b"c"]));
    assert_eq!(cut(0b11), feed_lists::byte_by_byte(b"abc"));
    assert_eq!(feed_lists::cut(b"", 0), pieces(&[]));
}

#[test]
fn a_report_on_a_feed_has_a_reduced_list() {
    let (_, text) = printed(&Faulty::new(&Reference, Fault::OffsetInPiece), &SHORT);
    assert!(text.contains("difference in feeds\n"), "{text}");
    let list = text.lines().filter(|line| line.starts_with("  list "));
    assert_eq!(list.count(), 2, "{text}");
}

#[test]
fn every_text_of_bytes_is_handed_over_once() {
    let mut texts = Vec::new();
    let visit = |text: &[u8]| {
        texts.push(text.to_vec());
        Ok::<(), ()>(())
    };
    assert_eq!(repair_case::every_text(b"ab", 2, visit), Ok(()));
    assert_eq!(texts, [b"aa", b"ba", b"ab", b"bb"]);
}

#[test]
fn a_report_has_a_reduced_text() {
    let (_, text) = printed(&Faulty::new(&Reference, Fault::KeycapRule), &SHORT);
    let line = text.lines().find(|line| line.starts_with("  text "));
    assert_eq!(line, Some("  text      5 bytes: C2 A9 E2 83 A3"), "{text}");
    let (_, text) = printed(&Faulty::new(&Reference, Fault::ForgetsFindings), &SHORT);
    assert!(
        text.contains("difference in lists, in a text of "),
        "{text}"
    );
    assert!(text.contains("\n  list 1 "), "{text}");
}

#[test]
fn the_same_seed_gives_the_same_run() {
    let report = |seed| {
        let options = Options { seed, ..SHORT };
        let (_, text) = printed(&Faulty::new(&Reference, Fault::Beginning), &options);
        text.split_once("difference in")
            .map(|parts| parts.1.to_owned())
    };
    assert_eq!(report(3), report(3));
    assert_ne!(report(3), report(4));
}

#[test]
fn a_list_is_reduced_to_what_has_the_fault() {
    let numbers: Vec<u32> = (0..1000).collect();
    let has_both = |rest: &[u32]| rest.contains(&17) && rest.contains(&801);
    assert_eq!(reduced(&numbers, has_both), [17, 801]);
    assert_eq!(reduced(&numbers, |_| true), []);
    let text = "ab\u{2764}c\u{FE0F}d".as_bytes();
    let has_heart = |text: &[u8]| text.windows(3).any(|bytes| bytes == "\u{2764}".as_bytes());
    assert_eq!(reduced_text(text, has_heart), "\u{2764}".as_bytes());
    assert_eq!(
        characters(b"a\xC3\xA9\xC3"),
        [&b"a"[..], b"\xC3\xA9", b"\xC3"]
    );
}

/// The command of some arguments.
fn parsed(arguments: &str) -> Result<Command, String> {
    Command::parse(arguments.split_whitespace().map(str::to_owned))
}

#[test]
fn arguments_are_read() {
    let command = parsed(
        "--cases 5 --seconds 6 --seed 7 --length 2 --sheets 3 --without-limits --without-published --fault beginning",
    );
    let options = Options {
        cases: 5,
        seconds: 6,
        seed: 7,
        length: 2,
        sheets: 3,
        limits: false,
        published: false,
    };
    let planted = Planted::One(Fault::Beginning);
    let expected = Command {
        options,
        planted,
        programs: None,
    };
    assert_eq!(command, Ok(expected));
    assert_eq!(
        parsed("").map(|command| command.options),
        Ok(Options::default())
    );
    let programs = parsed("--programs a b").map(|command| command.programs);
    let [format, report] = ["a", "b"].map(Into::into);
    assert_eq!(programs, Ok(Some(Programs { format, report })));
    for wrong in [
        "--cases",
        "--cases five",
        "--fault none",
        "--programs a",
        "--other",
        "5",
    ] {
        assert!(parsed(wrong).is_err(), "{wrong}");
    }
}

#[test]
fn a_fault_that_is_not_reported_is_told() {
    // Texts of no character, and nothing drawn: too little to find most faults.
    let command =
        parsed("--cases 0 --length 0 --sheets 0 --without-limits --without-published --faults")
            .expect("a command");
    let mut out = Vec::new();
    let are_reported = command.execute(&Reference, &mut out).expect("printed");
    let text = String::from_utf8(out).expect("a text");
    assert!(
        !are_reported && text.contains("keycap-rule          NOT REPORTED"),
        "{text}"
    );
    assert!(
        text.contains("byte-after           difference in every text"),
        "{text}"
    );
}

#[test]
fn a_run_that_tries_nothing_reports_no_fault() {
    let command = parsed("--seconds 0 --sheets 0 --without-limits --without-published --faults");
    let mut out = Vec::new();
    let are_reported = command
        .expect("a command")
        .execute(&Reference, &mut out)
        .expect("printed");
    let text = String::from_utf8(out).expect("a text");
    assert!(!are_reported, "{text}");
    assert!(
        text.contains("keycap-rule          NOT REPORTED\n"),
        "{text}"
    );
}

#[test]
fn every_byte_of_a_lent_buffer_counts() {
    let draft = Draft::bytes(b"abc".to_vec());
    let call = |spoil: fn(&mut [u8])| {
        let lent = lend(
            || "a call".to_owned(),
            &draft,
            5,
            |out| {
                out[..3].copy_from_slice(b"abc");
                spoil(out);
                3
            },
        );
        lent.map_err(|difference| difference.found)
    };
    assert_eq!(call(|_| ()), Ok(()));
    let found = |spoil| call(spoil).expect_err("a difference");
    assert_eq!(found(|out| out[2] = b'd'), "64 at byte 2 of the 3 written");
    assert!(found(|out| out[3] ^= 1).ends_with(" at byte 0 after the 3 written"));
    assert!(found(|out| out[4] ^= 1).ends_with(" at byte 1 after the 3 written"));
    let short = lend(|| "a call".to_owned(), &draft, 2, |_| 8 << 56 | 3);
    assert_eq!(short, Ok(()));
}

#[test]
fn lines_of_the_published_lists_are_read() {
    let line = "1F44B 1F3FB ; fully-qualified     # \u{1F44B}\u{1F3FB} E1.0 waving hand";
    assert_eq!(line_texts(line), ["\u{1F44B}\u{1F3FB}"]);
    let line = "231A..231B    ; Basic_Emoji  ; watch..hourglass done  # E0.6   [2]";
    assert_eq!(line_texts(line), ["\u{231A}", "\u{231B}"]);
    for nothing in [
        "# group: Smileys & Emotion",
        "",
        "XYZ ; no code point",
        "231A.. ; half",
    ] {
        assert_eq!(line_texts(nothing), [""; 0], "{nothing}");
    }
}

#[test]
fn lists_that_are_not_there_are_named() {
    let read = texts(Path::new("no such folder"));
    assert!(read.texts.is_empty() && read.empty.is_empty());
    assert_eq!(read.missing, LISTS);
}

#[test]
fn lists_without_a_text_are_named() {
    let folder = env::temp_dir().join(format!("tilghorz-lists-{}", process::id()));
    fs::create_dir_all(&folder).expect("a folder");
    fs::write(folder.join(LISTS[0]), "231A ; Basic_Emoji\n").expect("written");
    fs::write(folder.join(LISTS[1]), "# nothing\n").expect("written");
    let read = texts(&folder);
    fs::remove_dir_all(&folder).expect("removed");
    assert_eq!(read.texts, ["\u{231A}".to_owned()].into());
    assert_eq!((read.missing, read.empty), (vec![LISTS[2]], vec![LISTS[1]]));
}

#[test]
fn a_run_that_tries_nothing_does_not_pass() {
    let no_time = Options {
        seconds: 0,
        ..SHORT
    };
    let (is_same, text) = printed(&Reference, &no_time);
    assert!(!is_same, "{text}");
    assert!(
        text.ends_with("nothing was tried: texts of 0 characters, in --seconds\n"),
        "{text}"
    );
    let nothing_drawn = Options { cases: 0, ..SHORT };
    assert!(printed(&Reference, &nothing_drawn).0);
}

#[test]
fn a_published_text_has_its_forms() {
    let expected = [
        "a\u{FE0F}b",
        "a\u{FE0E}b",
        "a\u{FE0E}b\u{FE0E}",
        "a\u{FE0F}b\u{FE0F}",
        "ca\u{FE0F}b",
        "c\u{200D}ab",
        "ab",
    ];
    assert_eq!(forms("a\u{FE0F}b", "c"), expected);
}

#[test]
fn programs_are_run_on_a_standard_input() {
    // A program that copies is right where the text needs no change, and wrong where it does.
    let cat = PathBuf::from("cat");
    assert_eq!(written(&cat, b"abc").expect("run"), b"abc");
    let programs = Programs {
        format: cat.clone(),
        report: cat,
    };
    let mut out = Vec::new();
    assert!(!programs.compare(1, &mut out).expect("run"));
    let text = String::from_utf8(out).expect("a text");
    assert!(
        text.starts_with("difference in programs\n  call      cat on "),
        "{text}"
    );
    assert!(written("no such program".as_ref(), b"").is_err());
}
