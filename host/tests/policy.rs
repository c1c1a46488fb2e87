//! The text of the part `policy`, read as its head says.

mod records;

use std::collections::{HashMap, HashSet};

use records::records;
use tilghorz_comparison::policy::answers;

/// Each keyword with its fields, as the head of the text has them.
const LINES: [(&str, &str); 18] = [
    ("entries", "N N"),
    ("size", "N N N N"),
    ("default", "W W W W W W W W W W W W W W W W W W W W W W W W"),
    ("named", "NAME S"),
    ("singleton", "C S"),
    ("keycap", "C S"),
    ("set", "N S"),
    ("complement", "N S"),
    ("contains", "N C B B"),
    ("display", "N T"),
    ("union", "N N S"),
    ("intersection", "N N S"),
    ("symmetric", "N N S"),
    ("difference", "N N S"),
    ("equal", "N N B"),
    ("policy", "N N N"),
    ("rule", "N C D D"),
    ("end", ""),
];

/// The number of words of a key set.
const WORDS: usize = 12;

/// Whether a field is of a kind.
fn is_of_kind(field: &str, kind: &str) -> bool {
    let decimal = field.bytes().all(|byte| byte.is_ascii_digit());
    let hexadecimal = field
        .bytes()
        .all(|byte| byte.is_ascii_digit() || (b'A'..=b'F').contains(&byte));
    match kind {
        "N" => decimal && field.len() == 3,
        "D" => ["0", "1", "2", "3"].contains(&field),
        "B" => ["0", "1"].contains(&field),
        "C" => hexadecimal && field.len() == 6,
        "W" => hexadecimal && field.len() == 16,
        "T" => hexadecimal && field.len().is_multiple_of(2),
        "NAME" => field
            .bytes()
            .all(|byte| byte.is_ascii_uppercase() || byte == b'_'),
        _ => false,
    }
}

/// The words and the sizes of a key set's fields.
fn key_set(fields: &[&str]) -> ([u64; WORDS], [u32; 2]) {
    let (words, sizes) = fields.split_at(WORDS);
    let words: Vec<u64> = words
        .iter()
        .map(|word| u64::from_str_radix(word, 16).expect("a word"))
        .collect();
    let sizes: Vec<u32> = sizes
        .iter()
        .map(|size| size.parse().expect("a size"))
        .collect();
    (
        words.try_into().expect("twelve words"),
        sizes.try_into().expect("two sizes"),
    )
}

#[test]
fn is_small_plain_text_and_always_the_same() {
    let text = answers();
    assert!(text.len() < 64 * 1024, "{} bytes", text.len());
    assert!(
        text.bytes()
            .all(|byte| byte == b'\n' || (b' '..=b'~').contains(&byte))
    );
    assert!(text.ends_with("\nend\n"));
    assert_eq!(text, answers());
}

#[test]
fn every_line_has_the_form_of_its_keyword() {
    let one_set = format!("{}N N", "W ".repeat(WORDS));
    let forms: HashMap<&str, String> = LINES
        .map(|(keyword, form)| (keyword, form.replace('S', &one_set)))
        .into();
    let text = answers();
    for (keyword, fields) in records(&text) {
        let kinds: Vec<&str> = forms[keyword].split_whitespace().collect();
        assert_eq!(fields.len(), kinds.len(), "{keyword} {fields:?}");
        for (field, kind) in fields.iter().zip(kinds) {
            assert!(is_of_kind(field, kind), "{keyword}: {field} is no {kind}");
        }
    }
}

#[test]
fn the_lines_stand_in_their_order() {
    // Keywords that take turns count as one group.
    let groups = [
        "entries",
        "size",
        "default",
        "named",
        "singleton keycap",
        "set",
        "complement",
        "contains",
        "display",
        "union intersection symmetric difference equal",
        "policy rule",
        "end",
    ];
    let text = answers();
    let found = records(&text);
    let mut rest = found.iter().map(|(keyword, _)| *keyword).peekable();
    for group in groups {
        let keywords: Vec<&str> = group.split(' ').collect();
        let mut seen = HashSet::new();
        while let Some(keyword) = rest.next_if(|keyword| keywords.contains(keyword)) {
            seen.insert(keyword);
        }
        assert_eq!(seen.len(), keywords.len(), "{group}: {seen:?}");
    }
    assert_eq!(rest.next(), None);
}

#[test]
fn the_default_policy_has_the_known_sizes() {
    let text = answers();
    assert!(text.contains("\nentries 354 006\nsize 147 000 219 354\ndefault "));
}

#[test]
fn sizes_count_the_ones_of_the_words() {
    let text = answers();
    let mut sets = 0;
    for (keyword, fields) in records(&text) {
        if fields.len() > WORDS + 2 && keyword != "default" {
            let (words, sizes) = key_set(&fields[fields.len() - WORDS - 2..]);
            let ones = |words: &[u64]| words.iter().map(|word| word.count_ones()).sum::<u32>();
            assert_eq!(
                sizes,
                [ones(&words[..6]), ones(&words[6..])],
                "{keyword} {fields:?}"
            );
            sets += 1;
        }
    }
    assert!(sets > 200);
}

#[test]
fn operations_on_sets_are_operations_on_words() {
    let text = answers();
    let mut sets = Vec::new();
    for (keyword, fields) in records(&text) {
        let number = |place: usize| fields[place].parse::<usize>().expect("a number");
        if keyword == "set" {
            assert_eq!(number(0), sets.len());
            sets.push(key_set(&fields[1..]).0);
            continue;
        }
        let operation: fn(u64, u64) -> u64 = match keyword {
            "union" => |a, b| a | b,
            "intersection" => |a, b| a & b,
            "symmetric" => |a, b| a ^ b,
            "difference" => |a, b| a & !b,
            "equal" => {
                assert_eq!(fields[2] == "1", sets[number(0)] == sets[number(1)]);
                continue;
            }
            _ => continue,
        };
        let (a, b) = (sets[number(0)], sets[number(1)]);
        let expected: Vec<u64> = a.iter().zip(b).map(|(&a, b)| operation(a, b)).collect();
        assert_eq!(
            key_set(&fields[2..]).0[..],
            expected,
            "{keyword} {fields:?}"
        );
    }
}
