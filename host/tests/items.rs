//! The texts of the parts of the items, read as their head says.

mod records;

use std::collections::HashSet;

use evfmt::{FormatResult, Policy, format_text};
use records::records;
use tilghorz_comparison::{PARTS, items};

/// The parts of the items.
fn parts() -> [String; 3] {
    [items::short(), items::drawn(), items::unicode()]
}

/// The fields of the lines with a keyword.
fn lines<'a>(part: &'a str, keyword: &str) -> Vec<Vec<&'a str>> {
    let found = records(part).into_iter();
    found
        .filter(|(one, _)| *one == keyword)
        .map(|(_, fields)| fields)
        .collect()
}

/// The bytes that hexadecimal digits stand for.
fn bytes(digits: &str) -> Vec<u8> {
    assert!(digits.len().is_multiple_of(2), "{digits}");
    (0..digits.len())
        .step_by(2)
        .map(|at| u8::from_str_radix(&digits[at..at + 2], 16).expect("two digits"))
        .collect()
}

/// The text of a line `text`.
fn text_of(fields: &[&str]) -> String {
    let digits = fields[0].strip_suffix('.').expect("a full stop");
    String::from_utf8(bytes(digits)).expect("a text")
}

/// The span at the front of a field.
fn span(field: &str) -> (usize, usize) {
    let (start, rest) = field.split_once('-').expect("a span");
    let digits = rest.bytes().take_while(u8::is_ascii_digit).count();
    let number = |digits: &str| digits.parse().expect("a number");
    (number(start), number(&rest[..digits]))
}

/// The choices of a finding's field: the default of each, and its two replacements.
fn choices(field: &str) -> Vec<(char, [Vec<u8>; 2])> {
    let choices = field.split([':', '=']).nth(2).expect("choices");
    let defaults = choices.chars().filter(char::is_ascii_lowercase);
    let replaced = choices.split(['t', 'e']).skip(1).map(|choice| {
        let (text, emoji) = choice[1..].split_once('+').expect("two replacements");
        [bytes(text), bytes(emoji)]
    });
    defaults.zip(replaced).collect()
}

/// The replacements of a finding's field.
fn replacements(field: &str) -> Vec<Vec<u8>> {
    field.split('=').skip(1).map(bytes).collect()
}

#[test]
fn are_small_plain_texts_and_always_the_same() {
    for (first, second) in parts().iter().zip(parts()) {
        assert!(first.len() < 256 * 1024, "{} bytes", first.len());
        assert!(
            first
                .bytes()
                .all(|byte| byte == b'\n' || (b' '..=b'~').contains(&byte))
        );
        assert!(first.lines().all(|line| !line.ends_with(' ')));
        assert!(first.ends_with("\nend\n"));
        assert_eq!(*first, second);
    }
}

#[test]
fn each_part_names_the_command_that_makes_it() {
    for part in PARTS {
        let line = "bin stored-answers -- make\n";
        assert!((part.answers)().contains(line), "{}", part.name);
    }
}

#[test]
fn the_lines_stand_in_their_order() {
    for part in parts() {
        let keywords: Vec<&str> = records(&part).iter().map(|(keyword, _)| *keyword).collect();
        let rest = keywords.strip_prefix(&["policy"; 7]).expect("policies");
        let rest = rest.strip_suffix(&["end"]).expect("an end");
        assert!(
            rest.chunks(3)
                .all(|lines| lines == ["text", "under", "under"])
        );
    }
}

#[test]
fn there_are_more_than_three_thousand_texts() {
    let parts = parts();
    let texts: HashSet<String> = parts
        .iter()
        .flat_map(|part| lines(part, "text"))
        .map(|fields| text_of(&fields))
        .collect();
    assert!(texts.len() > 3000, "{}", texts.len());
}

#[test]
fn items_tile_their_texts() {
    for part in parts() {
        for fields in lines(&part, "text") {
            let mut at = 0;
            for field in &fields[1..] {
                assert!(["p", "s", "l", "e"].contains(&&field[..1]), "{field}");
                let (start, end) = span(&field[1..]);
                assert!(start == at && at < end, "{fields:?}");
                at = end;
            }
            assert_eq!(at, text_of(&fields).len());
        }
    }
}

/// The text with the bytes of each finding exchanged for its default replacement.
fn mended(text: &str, findings: &[&str]) -> Vec<u8> {
    let mut out = Vec::new();
    let mut at = 0;
    for field in findings {
        let (start, end) = span(field);
        out.extend_from_slice(&text.as_bytes()[at..start]);
        out.extend_from_slice(&replacements(field)[0]);
        at = end;
    }
    out.extend_from_slice(&text.as_bytes()[at..]);
    out
}

#[test]
fn findings_under_the_default_policy_give_the_formatted_text() {
    for part in parts() {
        let findings = lines(&part, "under");
        let under_default = findings.iter().filter(|fields| fields[0] == "0");
        let texts = lines(&part, "text");
        assert_eq!(under_default.clone().count(), texts.len());
        for (fields, findings) in texts.iter().zip(under_default) {
            let text = text_of(fields);
            let expected = match format_text(&text, &Policy::default()) {
                FormatResult::Unchanged => text.clone(),
                FormatResult::Changed(changed) => changed,
            };
            assert_eq!(mended(&text, &findings[1..]), expected.as_bytes());
        }
    }
}

#[test]
fn findings_have_as_many_replacements_as_their_decisions_ask_for() {
    let parts = parts();
    let findings = parts.iter().flat_map(|part| lines(part, "under"));
    let mut lists = HashSet::new();
    for field in findings.flat_map(|fields| fields.into_iter().skip(1)) {
        let decisions: String = choices(field).iter().map(|(default, _)| default).collect();
        let wanted = match decisions.len() {
            0 => 1,
            1 => 3,
            _ => 4,
        };
        let found = replacements(field);
        assert_eq!(found.len(), wanted, "{field}");
        // All are as long: decisions choose between selectors of three bytes.
        assert!(found.iter().all(|one| one.len() == found[0].len()));
        lists.insert(decisions);
    }
    assert!(lists.len() > 8, "{lists:?}");
}

#[test]
fn a_choice_is_a_part_of_each_replacement() {
    let parts = parts();
    let findings = parts.iter().flat_map(|part| lines(part, "under"));
    let mut found = 0;
    for field in findings.flat_map(|fields| fields.into_iter().skip(1)) {
        // By default, with all text and with all emoji: which of a choice's two stands there.
        let which: [fn(char) -> usize; 3] = [|default| usize::from(default == 'e'), |_| 0, |_| 1];
        for (replacement, which) in replacements(field).iter().zip(which) {
            let mut rest = &replacement[..];
            for (default, replaced) in choices(field) {
                let choice = &replaced[which(default)];
                let at = rest.windows(choice.len()).position(|part| part == choice);
                rest = &rest[at.expect("the choice's unit") + choice.len()..];
                found += 1;
            }
        }
    }
    assert!(found > 1000, "{found}");
}

/// Whether a field of a line with the keyword passes a test; its first field, the text or the policy, is left out.
fn occurs(parts: &[String], keyword: &str, test: impl Fn(&str) -> bool) -> bool {
    parts
        .iter()
        .flat_map(|part| lines(part, keyword))
        .any(|fields| fields[1..].iter().any(|field| test(field)))
}

#[test]
fn every_count_and_every_part_of_an_item_occurs() {
    let parts = parts();
    for letter in ["u", "m", "a", "c", "f", "r", "p", "d"] {
        let has_count = |field: &str| field.split(':').nth(1).is_some_and(|c| c.contains(letter));
        assert!(occurs(&parts, "under", has_count), "{letter}");
    }
    for letter in ["b", "f", ",", "m", "k", "g", "r", "j", "z", "!", "te", "et"] {
        let has_part = |field: &str| field.contains(letter);
        assert!(occurs(&parts, "text", has_part), "{letter}");
    }
}
