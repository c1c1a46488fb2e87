//! Policies as sheets: document 02, (vi).

use tilghorz::{Context, KeySet, LONGEST_TEXT, Policy, Refusal, variation_entries};

/// The policy with no members.
fn empty() -> Policy {
    Policy::from_sheet(b"\n\n\n\n").expect("a sheet")
}

/// The policy in which each of the four sets, by its number, has the entries of these numbers.
fn of_sets(is_member: impl Fn(usize, usize) -> bool) -> Policy {
    let mut policy = empty();
    let sets = KeySet::ALL.map(|set| Context::ALL.map(|context| (set, context)));
    for (number, &(set, context)) in sets.as_flattened().iter().enumerate() {
        for (entry, &base) in variation_entries().iter().enumerate() {
            if is_member(number, entry) {
                assert_eq!(policy.add(set, base, context), Ok(true));
            }
        }
    }
    policy
}

/// The policy of a sheet.
fn read(sheet: &str) -> Result<Policy, Refusal> {
    sheet.parse()
}

#[test]
fn the_lines_are_the_four_sets() {
    assert_eq!(read("\n\n\n\n"), Ok(empty()));
    for (number, sheet) in [
        "2764\n\n\n\n",
        "\n2764\n\n\n",
        "\n\n2764\n\n",
        "\n\n\n2764\n",
    ]
    .into_iter()
    .enumerate()
    {
        let heart = variation_entries().binary_search(&'\u{2764}');
        let policy = of_sets(|set, entry| set == number && Ok(entry) == heart);
        assert_eq!(read(sheet), Ok(policy.clone()));
        assert_eq!(policy.to_string(), sheet);
    }
}

#[test]
fn a_written_sheet_reads_back_to_its_policy() {
    let entries = variation_entries().len();
    let mut policies = vec![empty(), Policy::default(), of_sets(|_, _| true)];
    policies.push(of_sets(|set, entry| (entry + set) % 2 == 0));
    policies.push(of_sets(|set, entry| (entry + set) % 3 < 2));
    policies.extend((0..entries).map(|member| of_sets(|set, entry| (entry + set) == member)));
    let sheets: Vec<Vec<u8>> = policies.iter().map(Policy::to_sheet).collect();
    for (policy, sheet) in policies.iter().zip(&sheets) {
        assert!(sheet.is_ascii());
        assert_eq!(policy.to_string().as_bytes(), sheet);
        assert_eq!(Policy::from_sheet(sheet).as_ref(), Ok(policy));
        assert_eq!(read(&policy.to_string()).as_ref(), Ok(policy));
    }
    // "Two policies are equal exactly when their written sheets are."
    for (policy, sheet) in policies.iter().zip(&sheets) {
        for (other, other_sheet) in policies.iter().zip(&sheets) {
            assert_eq!(policy == other, sheet == other_sheet);
        }
    }
}

#[test]
fn neighbours_of_the_table_are_joined_and_digits_are_few() {
    for (sheet, written) in [
        ("0031,000030\n\n\n\n", "30-31\n\n\n\n"),
        ("30,32\n\n\n\n", "30,32\n\n\n\n"),
        ("AE,00A9\n38,A9\n39,A9\n\n", "A9-AE\n38,A9\n39-A9\n\n"),
        ("02764\n\n\n01F004\n", "2764\n\n\n1F004\n"),
        ("35-39,33,30-36,31\n\n\n\n", "30-39\n\n\n\n"),
    ] {
        assert_eq!(read(sheet).expect("a sheet").to_string(), written);
    }
    let all = of_sets(|_, _| true).to_string();
    let (first, last) = (variation_entries()[0], variation_entries().last());
    let last = u32::from(*last.expect("an entry"));
    let line = format!("{:02X}-{last:04X}\n", u32::from(first));
    assert_eq!(all, line.repeat(4));
}

#[test]
fn what_does_not_follow_the_form_is_told_by_its_offset() {
    for (sheet, offset) in [
        ("", 0),
        ("030\n\n\n\n", 3),
        ("0000030\n\n\n\n", 6),
        ("a9\n\n\n\n", 0),
        ("30, 31\n\n\n\n", 3),
        ("30\r\n\n\n\n", 2),
        ("30,,31\n\n\n\n", 3),
        ("30,\n\n\n\n", 3),
        ("\n\n\n\n\n", 4),
        ("\n\n\n30", 5),
        ("39-30x", 5),
        ("39-30,", 0),
        ("39-30", 5),
        ("30,39-30\n\n\nx\n", 3),
    ] {
        assert_eq!(read(sheet), Err(Refusal::NotASheet { offset }), "{sheet:?}");
    }
    for (sheet, offset) in [
        ("FFFFFF\n\n\n\n", 0),
        ("30,41\n\n\n\n", 3),
        ("30-41\n\n\n\n", 3),
    ] {
        assert_eq!(
            read(sheet),
            Err(Refusal::NotAnEntry { offset }),
            "{sheet:?}"
        );
    }
}

#[test]
fn a_sheet_has_the_limit_of_a_text() {
    let long = "30,".repeat(LONGEST_TEXT / 3) + "\n\n\n";
    assert_eq!(long.len(), LONGEST_TEXT + 2);
    assert_eq!(read(&long), Err(Refusal::TextTooLong));
    let offset = LONGEST_TEXT - 1;
    let front = &long.as_bytes()[..LONGEST_TEXT];
    // Its last byte is the line feed after a comma.
    assert_eq!(
        Policy::from_sheet(front),
        Err(Refusal::NotASheet { offset })
    );
}

#[test]
fn a_short_buffer_is_refused_and_stays_as_it_was() {
    let policy = Policy::default();
    let sheet = policy.to_sheet();
    let wanted = sheet.len();
    let mut out = vec![b'#'; wanted + 3];
    assert_eq!(
        policy.write_sheet_into(&mut out[..wanted - 1]),
        Err(Refusal::OutputTooShort { wanted })
    );
    assert!(out.iter().all(|byte| *byte == b'#'));
    assert_eq!(policy.write_sheet_into(&mut out), Ok(wanted));
    assert_eq!((&out[..wanted], &out[wanted..]), (&sheet[..], &b"###"[..]));
}
