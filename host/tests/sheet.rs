//! The reading of document 02, (vi), by its sentences.

use tilghorz_comparison::Random;
use tilghorz_comparison::calls::{Answer, Calls, POLICY_BYTES, Reference, SHEET_ROOM};
use tilghorz_comparison::comparison::faults::Fault;
use tilghorz_comparison::comparison::faulty::Faulty;
use tilghorz_comparison::comparison::{sheet_case, sheets};
use tilghorz_comparison::reference::calls::{Draft, LONGEST_TEXT};
use tilghorz_comparison::reference::policy::{self, default_policy};
use tilghorz_comparison::reference::{characters, sheet};

/// The answer to a sheet, with room for a policy.
fn answer(sheet: &[u8]) -> Answer {
    sheet::read(sheet).with_room(POLICY_BYTES).0
}

/// The code points that the four lines of a sheet mean.
fn meaning(sheet: &str) -> [Vec<u32>; 4] {
    let draft = sheet::read(sheet.as_bytes());
    let (_, bytes) = draft.with_room(POLICY_BYTES);
    assert_eq!(bytes.len(), POLICY_BYTES, "{sheet:?}: {draft:?}");
    [0, 1, 2, 3].map(|line| {
        let is_member = |entry: &usize| {
            let (byte, bit) = policy::place(line, *entry);
            bytes[byte] & bit != 0
        };
        let members = (0..characters::entries()).filter(is_member);
        members
            .filter_map(|entry| characters::entry(entry as u64))
            .collect()
    })
}

/// The sheet of what a sheet means.
fn rewritten(sheet: &str) -> String {
    let draft = sheet::read(sheet.as_bytes());
    let (_, policy) = draft.with_room(POLICY_BYTES);
    match sheet::write(policy) {
        Draft::Writes { bytes, .. } => String::from_utf8(bytes).expect("a text"),
        refused => panic!("{sheet:?}: {refused:?}"),
    }
}

/// The offset of refusal 11, or none if the sheet has another answer.
fn form_error(sheet: &str) -> Option<u64> {
    let answer = answer(sheet.as_bytes());
    (answer.number == 11).then_some(answer.value)
}

#[test]
fn the_lines_are_the_four_sets() {
    let none = Vec::new;
    assert_eq!(meaning("\n\n\n\n"), [none(), none(), none(), none()]);
    let members = meaning("23\n2A\nA9\n2764,30-32\n");
    let expected = [
        vec![0x23],
        vec![0x2A],
        vec![0xA9],
        vec![0x30, 0x31, 0x32, 0x2764],
    ];
    assert_eq!(members, expected);
}

#[test]
fn a_range_includes_only_the_entries_inside_it() {
    // Between 39 and A9 there is no other entry, and AE follows.
    let [first, ..] = meaning("39-AE\n\n\n\n");
    assert_eq!(first, [0x39, 0xA9, 0xAE]);
    let [first, ..] = meaning("30-30\n\n\n\n");
    assert_eq!(first, [0x30]);
}

#[test]
fn pieces_come_in_any_sequence_and_overlapping() {
    let [first, ..] = meaning("32,000031-33,30-31,31,32\n\n\n\n");
    assert_eq!(first, [0x30, 0x31, 0x32, 0x33]);
}

#[test]
fn a_code_point_has_two_or_four_to_six_digits() {
    for whole in ["30", "0030", "00030", "000030"] {
        let [first, ..] = meaning(&format!("{whole}\n\n\n\n"));
        assert_eq!(first, [0x30]);
    }
    assert_eq!(form_error("\n3\n\n\n"), Some(2));
    assert_eq!(form_error("030\n\n\n\n"), Some(3));
    assert_eq!(form_error("030,31\n\n\n\n"), Some(3));
    assert_eq!(form_error("30-030\n\n\n\n"), Some(6));
    assert_eq!(form_error("030-31\n\n\n\n"), Some(3));
    assert_eq!(form_error("0000030\n\n\n\n"), Some(6));
    assert_eq!(form_error("30-0000031\n\n\n\n"), Some(9));
}

#[test]
fn no_other_byte_stands_in_a_sheet() {
    for (sheet, offset) in [
        ("a9\n\n\n\n", 0),
        ("Ae\n\n\n\n", 1),
        ("30, 31\n\n\n\n", 3),
        (" 30\n\n\n\n", 0),
        ("30 \n\n\n\n", 2),
        ("30\r\n\n\n\n", 2),
        ("30,,31\n\n\n\n", 3),
        (",30\n\n\n\n", 0),
        ("30,\n\n\n\n", 3),
        ("-30\n\n\n\n", 0),
        ("30-\n\n\n\n", 3),
        ("30--31\n\n\n\n", 3),
        ("30-31-32\n\n\n\n", 5),
        ("\n\n\n\n\n", 4),
        ("\n\n\n\n30\n", 4),
        ("30\n\n\n\n ", 6),
    ] {
        assert_eq!(form_error(sheet), Some(offset), "{sheet:?}");
    }
}

#[test]
fn a_sheet_that_breaks_off_is_told_by_its_length() {
    let whole = "30-39,2764\n\n30\n\n";
    assert_eq!(form_error(whole), None);
    for length in 0..whole.len() {
        assert_eq!(form_error(&whole[..length]), Some(length as u64));
    }
}

#[test]
fn a_range_that_runs_down_is_told_at_its_start_if_it_is_closed() {
    for (sheet, offset) in [
        ("39-30", 5),
        ("39-30,", 0),
        ("39-30\n", 0),
        ("39-30x", 5),
        ("39-300", 6),
        ("39-3000", 7),
        ("39-3000\n", 8),
        ("39-0030\n\n\n\n", 0),
        ("30,39-30,x\n", 3),
        ("30,x,39-30,\n", 3),
        ("\n\n30-39,39-38\nx", 8),
        ("39-30,38-37\n\n\n\n", 0),
        ("\n\n\n\n39-30\n", 4),
        // A code point that is no entry is told after the whole form.
        ("FFFFFF,39-30\n\n\n\n", 7),
        ("FFFFFF-41\n\n\n\n", 0),
    ] {
        assert_eq!(form_error(sheet), Some(offset), "{sheet:?}");
    }
    assert_eq!(answer(b"39-3000\n\n\n\n"), Answer::new(12, 3));
}

#[test]
fn the_first_code_point_that_is_no_entry_is_told_by_its_own_offset() {
    for (sheet, offset) in [
        ("FFFFFF\n\n\n\n", 0),
        ("30,41\n\n\n\n", 3),
        ("30,30-41\n\n\n\n", 6),
        ("2F-41\n\n\n\n", 0),
        ("\n\nD800,41\n\n", 2),
        ("\n\n30-10FFFF,41\n\n", 5),
        ("\n\n\n30,110000\n", 6),
    ] {
        assert_eq!(
            answer(sheet.as_bytes()),
            Answer::new(12, offset),
            "{sheet:?}"
        );
    }
    // The form of all of it comes first.
    assert_eq!(form_error("41\n\n\n"), Some(5));
}

#[test]
fn the_room_comes_last_and_the_length_first() {
    let answer = |sheet: &[u8], room: usize| {
        Answer::of_word(Reference.read_sheet(sheet, &mut vec![0; room]))
    };
    assert_eq!(answer(b"x", 0), Answer::new(11, 0));
    assert_eq!(answer(b"41\n\n\n\n", 191), Answer::new(12, 0));
    assert_eq!(answer(b"30\n\n\n\n", 199), Answer::new(8, 200));
    assert_eq!(answer(b"30\n\n\n\n", 200), Answer::new(0, 200));
    for length in [LONGEST_TEXT - 1, LONGEST_TEXT, LONGEST_TEXT + 1] {
        let [sheet, wrong] = sheets::of_length(length);
        assert_eq!((sheet.len(), wrong.len()), (length, length));
        let is_long = length > LONGEST_TEXT;
        let expected = [Answer::new(0, 200), Answer::new(11, 0)];
        let expected = expected.map(|answer| if is_long { Answer::new(1, 0) } else { answer });
        assert_eq!([answer(&sheet, 200), answer(&wrong, 200)], expected);
    }
}

#[test]
fn a_sheet_is_written_in_one_way() {
    for (sheet, expected) in [
        ("\n\n\n\n", "\n\n\n\n"),
        ("0031,000030\n\n\n\n", "30-31\n\n\n\n"),
        ("30,32\n\n\n\n", "30,32\n\n\n\n"),
        // A9 and AE are neighbours of the table, and so are 39 and A9.
        ("AE,00A9\n38,A9\n39,A9\n\n", "A9-AE\n38,A9\n39-A9\n\n"),
        ("02764\n\n\n01F004\n", "2764\n\n\n1F004\n"),
    ] {
        assert_eq!(rewritten(sheet), expected);
    }
    let answer = |room: usize| {
        let policy = default_policy();
        Answer::of_word(Reference.write_sheet(policy, &mut vec![0; room]))
    };
    let Answer { number, value } = answer(0);
    assert_eq!(number, 8);
    assert_eq!(answer(value as usize), Answer::new(0, value));
    let refused = Reference.write_sheet(&default_policy()[1..], &mut []);
    assert_eq!(Answer::of_word(refused), Answer::new(2, 0));
}

/// The tests of whole slices and the search for the longest beginning agree with the sentence on 11's offset, read
/// literally: every beginning is tested, and each that passes is completed to a sheet.
#[test]
fn the_offset_is_that_of_the_first_byte_with_which_no_sheet_goes_on() {
    let complete = |bytes: &[u8]| {
        let lines = bytes.iter().filter(|&&byte| byte == b'\n').count();
        let further: [&[u8]; 7] = [b"", b"0", b"00", b"000", b"0000", b"00000", b"000000"];
        let ends = vec![b'\n'; 4_usize.saturating_sub(lines)];
        further
            .iter()
            .any(|digits| sheet::is_sheet(&[bytes, digits, &ends].concat()))
    };
    let mut number = 0;
    let visit = &mut |bytes: &[u8]| {
        number += 1;
        assert_eq!(sheet::begins_sheet(bytes), complete(bytes), "{bytes:?}");
        let first = (0..bytes.len()).find(|&at| !complete(&bytes[..=at]));
        assert_eq!(sheet::beginning(bytes), first.unwrap_or(bytes.len()));
        Ok::<(), ()>(())
    };
    assert_eq!(
        sheets::every_sheet(&sheets::TOKENS, 4, &mut Vec::new(), visit),
        Ok(())
    );
    assert_eq!(
        sheets::every_sheet(&sheets::FEW_BYTES, 5, &mut Vec::new(), visit),
        Ok(())
    );
    assert_eq!(number, 7_381 + 66_430);
}

#[test]
fn drawn_sheets_are_of_each_kind() {
    let mut random = Random::from_seed(1);
    let mut numbers = [0; 13];
    for _ in 0..4000 {
        for sheet in [sheets::drawn(&mut random), sheets::damaged(&mut random)] {
            numbers[usize::from(answer(&sheet).number)] += 1;
        }
    }
    for number in [0, 11, 12] {
        assert!(numbers[number] > 500, "{numbers:?}");
    }
}

#[test]
fn every_sheet_has_room() {
    let mut random = Random::from_seed(1);
    let lengths = sheets::policies(&mut random)
        .into_iter()
        .map(|policy| sheet::write(&policy).wanted());
    assert!(lengths.max() <= Some(SHEET_ROOM));
}

#[test]
fn a_fault_of_the_writer_is_found_in_its_policies() {
    let mut random = Random::from_seed(1);
    let policies = sheets::policies(&mut random);
    let are_same = |calls: &dyn Calls| {
        let mut checks = policies.iter().map(|p| sheet_case::check_write(calls, p));
        checks.all(|check| check.is_ok())
    };
    assert!(are_same(&Reference));
    for fault in [
        Fault::Unjoined,
        Fault::CodePointsJoined,
        Fault::FourDigits,
        Fault::SheetLength,
    ] {
        assert!(!are_same(&Faulty::new(&Reference, fault)), "{fault:?}");
    }
}
