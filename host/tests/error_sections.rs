//! The section `# Errors` of each function of the library for Rust names the refusals of its C function, by name and number
//! and in the order of README.md, "Which function makes which tests".

use std::collections::HashMap;
use std::fs;
use std::path::Path;

/// The functions of the library, each with the C function that it calls.
const FUNCTIONS: [(&str, &str, &str); 21] = [
    ("calls", "format", "tilghorz_format"),
    ("calls", "format_into", "tilghorz_format"),
    ("calls", "findings", "tilghorz_list"),
    ("calls", "items", "tilghorz_scan"),
    ("calls", "tips", "tilghorz_tips"),
    ("calls", "mend", "tilghorz_mend"),
    ("calls", "mend_into", "tilghorz_mend"),
    ("calls", "repair", "tilghorz_repair"),
    ("calls", "repair_into", "tilghorz_repair"),
    ("feed", "write", "tilghorz_feed_piece"),
    ("feed", "write_into", "tilghorz_feed_piece"),
    ("feed", "finish", "tilghorz_feed_end"),
    ("feed", "finish_into", "tilghorz_feed_end"),
    ("policy", "from_sheet", "tilghorz_read_sheet"),
    ("policy", "write_sheet_into", "tilghorz_write_sheet"),
    ("store", "new", "tilghorz_store_begin"),
    ("store", "file", "tilghorz_store_file"),
    ("store", "file_into", "tilghorz_store_file"),
    ("store", "release", "tilghorz_store_release"),
    ("store", "used", "tilghorz_store_used"),
    ("policy", "carried", "tilghorz_carry_policy"),
];

/// The functions that take a policy as bytes, and so give its refusals.
const OF_BYTES: [&str; 2] = ["from_bytes", "carried"];

/// The refusals that a function with typed arguments cannot give: of a policy, and of a decision.
const TYPED: [u64; 2] = [2, 6];
/// The refusals for lack of room, which only a function that takes a buffer gives.
const ROOM: [u64; 2] = [7, 8];

/// The text of a file, by its path from `host/`.
fn file(path: &str) -> String {
    let path = Path::new(env!("CARGO_MANIFEST_DIR")).join(path);
    fs::read_to_string(&path).unwrap_or_else(|error| panic!("{}: {error}", path.display()))
}

/// The refusals in the error sections of a source file: for each public function their names and numbers.
fn sections(source: &str) -> HashMap<String, Vec<(String, u64)>> {
    let (mut found, mut comment) = (HashMap::new(), String::new());
    for line in source.lines().map(str::trim) {
        if let Some(text) = line.strip_prefix("///") {
            comment.extend([text, " "]);
        } else if let Some(rest) = line.strip_prefix("pub fn ") {
            let name = rest.split(['<', '(']).next().expect("a name");
            if let Some((_, section)) = comment.split_once("# Errors") {
                // The first of two functions of a name is that of the call.
                let function = found.entry(name.to_owned());
                function.or_insert_with(|| refusals(section));
            }
            comment.clear();
        } else if !line.starts_with("#[") {
            comment.clear();
        }
    }
    found
}

/// The names and the numbers of a section.
fn refusals(section: &str) -> Vec<(String, u64)> {
    let named = section.split("[`Refusal::").skip(1);
    let refusal = |rest: &str| {
        let (name, rest) = rest.split_once("`] (").expect("a number");
        let (number, _) = rest.split_once(')').expect("an end");
        (name.to_owned(), number.parse().expect("a number"))
    };
    named.map(refusal).collect()
}

/// The numbers that README.md gives for a C function.
fn numbers(readme: &str, function: &str) -> Vec<u64> {
    let name = format!("`{function}`");
    let mut rows = readme
        .lines()
        .filter(|line| line.starts_with('|') && line.ends_with(" |"));
    let row = rows.find(|row| {
        row.split('|')
            .nth(1)
            .is_some_and(|names| names.contains(&name))
    });
    let numbers = row.expect(function).rsplit('|').nth(1).expect("numbers");
    numbers
        .split(',')
        .map(|number| number.trim().parse().expect("a number"))
        .collect()
}

#[test]
fn the_error_sections_name_the_refusals_of_the_calls() {
    let readme = file("../README.md");
    let (_, table) = readme
        .split_once("## Which function makes which tests")
        .expect("a table");
    let found = |source, name: &str| {
        let found = sections(&file(&format!("tilghorz/src/{source}.rs")));
        let numbers = found[name].iter().map(|(_, number)| *number);
        numbers.collect::<Vec<u64>>()
    };
    for (source, name, function) in FUNCTIONS {
        let given = |number: &u64| {
            (OF_BYTES.contains(&name) || !TYPED.contains(number))
                && (name.ends_with("_into") || !ROOM.contains(number))
        };
        let expected: Vec<u64> = numbers(table, function).into_iter().filter(given).collect();
        assert_eq!(found(source, name), expected, "{source}::{name}");
    }
    // The bytes are tested by formatting an empty text.
    assert_eq!(found("policy", "from_bytes"), [2, 15]);
}

#[test]
fn the_names_have_their_numbers() {
    let source = file("tilghorz/src/refusal.rs");
    let mut named = 0;
    for file_name in ["calls", "feed", "policy", "presentation", "store"] {
        for (name, number) in sections(&file(&format!("tilghorz/src/{file_name}.rs")))
            .into_values()
            .flatten()
        {
            let arm = format!("            {number} => Self::{name}");
            assert!(
                source.contains(&format!("{arm},")) || source.contains(&format!("{arm} {{")),
                "{name}"
            );
            named += 1;
        }
    }
    assert!(named > 50, "{named} refusals are named");
}
