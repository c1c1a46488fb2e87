//! The C header, the source in Rattle, the declarations that the host links by, and the trait of the calls say the
//! same.

use std::fs;
use std::path::Path;

use tilghorz_comparison::calls::{
    FINDING_BYTES, ITEM_BYTES, NEAREST_BYTES, POLICY_BYTES, SHEET_ROOM, TIP_BYTES,
};
use tilghorz_comparison::reference::feed::TOTALS_BYTES;
use tilghorz_comparison::reference::policy;

/// A function: its name, its parameters with name and kind, and the kind of its answer.
#[derive(Debug, PartialEq, Eq)]
struct Function {
    name: String,
    parameters: Vec<(String, String)>,
    answer: String,
}

/// The bindings of the host library.
const BINDINGS: &str = "tilghorz/src/sys.rs";

/// The text of a file, by its path from `host/`.
fn file(path: &str) -> String {
    let path = Path::new(env!("CARGO_MANIFEST_DIR")).join(path);
    fs::read_to_string(&path).unwrap_or_else(|error| panic!("{}: {error}", path.display()))
}

/// A text without its comments from `open` to `close` and without the preprocessor's lines, and with each run of white
/// space as one blank.
fn plain(text: &str, open: &str, close: &str) -> String {
    let mut out = String::new();
    let mut rest = text;
    while let Some((before, comment)) = rest.split_once(open) {
        out.push_str(before);
        out.push('\n');
        rest = comment.split_once(close).map_or("", |parts| parts.1);
    }
    out.push_str(rest);
    let lines = out.lines().filter(|line| !line.starts_with('#'));
    let words = lines.flat_map(str::split_whitespace);
    words.collect::<Vec<_>>().join(" ")
}

/// The kind in Rust of a kind in C.
fn kind(of: &str) -> String {
    match of.replace(' ', "").as_str() {
        "constuint8_t*" => "*const u8",
        "uint8_t*" => "*mut u8",
        "size_t" => "usize",
        "uint64_t" => "u64",
        other => panic!("the header has a kind that is not known here: {other}"),
    }
    .to_owned()
}

/// The functions that the header declares.
fn header_functions() -> Vec<Function> {
    let text = plain(&file("../include/tilghorz.h"), "/*", "*/");
    // After the brace of `extern "C"`.
    let (_, block) = text.split_once('{').expect("a block");
    let declarations = block.split(';').filter_map(|part| {
        let (head, parameters) = part.strip_suffix(')')?.split_once('(')?;
        let (answer, name) = head.trim().split_once(' ')?;
        let parameter = |parameter: &str| {
            let at = parameter.rfind([' ', '*']).expect("a name") + 1;
            (parameter[at..].to_owned(), kind(&parameter[..at]))
        };
        Some(Function {
            name: name.to_owned(),
            parameters: parameters
                .split(", ")
                .filter(|parameters| *parameters != "void")
                .map(parameter)
                .collect(),
            answer: kind(answer),
        })
    });
    declarations.collect()
}

/// The functions of the block `extern "C"`.
fn linked_functions() -> Vec<Function> {
    let text = plain(&file(BINDINGS), "//", "\n");
    let (_, block) = text.split_once("unsafe extern \"C\" {").expect("a block");
    let (block, _) = block.split_once('}').expect("its end");
    let declarations = block.split(';').filter_map(|part| {
        let (head, rest) = part.split_once('(')?;
        let (parameters, answer) = rest.split_once(')')?;
        let parameters = parameters.split(',').map(str::trim);
        let parameter = |parameter: &str| {
            let (name, kind) = parameter.split_once(": ").expect("a kind");
            (name.to_owned(), kind.to_owned())
        };
        Some(Function {
            name: head.trim().strip_prefix("fn ")?.to_owned(),
            parameters: parameters
                .filter(|p| !p.is_empty())
                .map(parameter)
                .collect(),
            answer: answer.trim().strip_prefix("-> ")?.to_owned(),
        })
    });
    declarations.collect()
}

/// A function on slices, each as a pointer and a length in the names of the header, from its name on.
fn slice_function(text: &str, prefix: &str) -> Option<Function> {
    let (head, rest) = text.split_once('(')?;
    let (parameters, answer) = rest.split_once(')')?;
    let named = parameters
        .split(',')
        .filter_map(|p| p.trim().split_once(": "));
    let parameters = named.flat_map(|(name, kind)| {
        let pointer = match kind {
            "&[u8]" => "*const u8",
            "&mut [u8]" => "*mut u8",
            plain => return vec![(name.to_owned(), plain.to_owned())],
        };
        vec![
            (name.to_owned(), pointer.to_owned()),
            (format!("{name}_len"), "usize".to_owned()),
        ]
    });
    let answer = answer.trim().strip_prefix("-> ")?;
    Some(Function {
        name: format!("{prefix}{}", head.trim()),
        parameters: parameters.collect(),
        answer: answer.split([' ', ';']).next()?.to_owned(),
    })
}

/// The functions of a file that stand after these words.
fn slice_functions(path: &str, words: &str, prefix: &str) -> Vec<Function> {
    let text = plain(&file(path), "//", "\n");
    let functions = text.split(words).skip(1);
    functions
        .filter_map(|text| slice_function(text, prefix))
        .collect()
}

/// The functions of the trait `Calls`.
fn trait_functions() -> Vec<Function> {
    let text = plain(&file("src/calls.rs"), "//", "\n");
    let (_, block) = text.split_once("pub trait Calls {").expect("a trait");
    let (block, _) = block.split_once('}').expect("its end");
    let functions = block.split("fn ").skip(1);
    functions
        .filter_map(|text| slice_function(text, "tilghorz_"))
        .collect()
}

#[test]
fn the_header_declares_twenty_four_functions() {
    let functions = header_functions();
    let names: Vec<&str> = functions.iter().map(|of| of.name.as_str()).collect();
    let expected = [
        "tilghorz_format",
        "tilghorz_list",
        "tilghorz_mend",
        "tilghorz_scan",
        "tilghorz_repair",
        "tilghorz_around",
        "tilghorz_nearest",
        "tilghorz_cut",
        "tilghorz_feed_begin",
        "tilghorz_feed_piece",
        "tilghorz_feed_end",
        "tilghorz_feed_policy",
        "tilghorz_feed_totals",
        "tilghorz_read_sheet",
        "tilghorz_write_sheet",
        "tilghorz_carry_policy",
        "tilghorz_tips",
        "tilghorz_store_begin",
        "tilghorz_store_file",
        "tilghorz_store_release",
        "tilghorz_store_used",
        "tilghorz_default_policy",
        "tilghorz_variation_entry",
        "tilghorz_version",
    ];
    assert_eq!(names, expected);
    let numbers: Vec<usize> = functions.iter().map(|of| of.parameters.len()).collect();
    let expected = [
        6, 6, 9, 4, 4, 10, 7, 3, 4, 6, 4, 4, 4, 4, 4, 6, 6, 5, 10, 4, 3, 2, 1, 0,
    ];
    assert_eq!(numbers, expected);
}

#[test]
fn the_declarations_agree_with_the_header() {
    assert_eq!(linked_functions(), header_functions());
}

#[test]
fn the_source_agrees_with_the_header() {
    let source = slice_functions(
        "../crates/tilghorz_c/src/lib.rt",
        "pub extern \"C\" fn ",
        "",
    );
    assert_eq!(source, header_functions());
}

#[test]
fn the_safe_functions_agree_with_the_header() {
    let safe = slice_functions(BINDINGS, "pub fn ", "tilghorz_");
    assert_eq!(safe, header_functions());
}

#[test]
fn the_trait_agrees_with_the_header() {
    assert_eq!(trait_functions(), header_functions());
}

#[test]
fn the_sizes_agree_with_the_header() {
    let header = file("../include/tilghorz.h");
    let bindings = file(BINDINGS);
    for (name, size) in [
        ("POLICY_BYTES", POLICY_BYTES),
        ("FINDING_BYTES", FINDING_BYTES),
        ("NEAREST_BYTES", NEAREST_BYTES),
        ("ITEM_BYTES", ITEM_BYTES),
        ("TIP_BYTES", TIP_BYTES),
        ("FEED_BYTES", feed_bytes()),
        ("TOTALS_BYTES", TOTALS_BYTES),
        ("SHEET_ROOM", SHEET_ROOM),
        ("STORE_BYTES", store_bytes()),
    ] {
        let mut lines = header.lines();
        let line = lines.find(|line| line.starts_with(&format!("#define TILGHORZ_{name} ")));
        let found = line.and_then(|line| line.split_whitespace().nth(2));
        assert_eq!(found, Some(size.to_string().as_str()), "{name}");
        assert!(
            bindings.contains(&format!("\npub const {name}: usize = {size};\n")),
            "{name} in {BINDINGS}"
        );
    }
}

/// The refusals that a text names after a prefix, each with the first number after its arrow.
fn refusals(text: &str, prefix: &str) -> Vec<(String, u64)> {
    let refusals = text.lines().filter_map(|line| {
        let (pattern, rest) = line.trim().strip_prefix(prefix)?.split_once(" => ")?;
        let name = pattern.split_once(' ').map_or(pattern, |(name, _)| name);
        let digits: String = rest.chars().take_while(char::is_ascii_digit).collect();
        Some((name.to_owned(), digits.parse().ok()?))
    });
    refusals.collect()
}

#[test]
fn the_refusals_agree_with_the_source() {
    let code = file("../crates/base/src/refusals.rt");
    let mut functions = code.split("pub fn ");
    let body = functions.find(|function| function.starts_with("number("));
    let source = refusals(body.expect("the method of the numbers"), "Refusal::");
    let numbers: Vec<u64> = source.iter().map(|(_, number)| *number).collect();
    assert_eq!(numbers, (1..=16).collect::<Vec<u64>>());
    assert_eq!(refusals(&file("tilghorz/src/refusal.rs"), "Self::"), source);
    let header = file("../include/tilghorz.h");
    for (name, number) in &source {
        let mut lines = header.lines();
        assert!(lines.any(|line| line.starts_with(&format!(" *   {number:<11}"))));
        let define = format!("\n#define TILGHORZ_{} {number}\n", screaming(name));
        assert!(header.contains(&define), "{define}");
    }
}

/// A name in capitals, with `_` before each word but the first.
fn screaming(name: &str) -> String {
    let mut out = String::new();
    for letter in name.chars() {
        if letter.is_ascii_uppercase() && !out.is_empty() {
            out.push('_');
        }
        out.push(letter.to_ascii_uppercase());
    }
    out
}

/// The number that follows a beginning in a file.
fn number_after(path: &str, beginning: &str) -> u64 {
    let text = file(path);
    let (_, rest) = text.split_once(beginning).expect(beginning);
    let digits: String = rest
        .chars()
        .filter(|letter| *letter != '_')
        .take_while(char::is_ascii_digit)
        .collect();
    digits.parse().expect("a number")
}

#[test]
fn the_limit_and_the_entries_agree_with_the_source() {
    let limit = number_after("../crates/base/src/lib.rt", "TEXT_LIMIT: usize = ");
    let header = "../include/tilghorz.h";
    assert_eq!(number_after(header, "TILGHORZ_TEXT_LIMIT "), limit);
    let tables = "../crates/emoji/src/unicode_data.rt";
    let entries = number_after(tables, "VARIATION_ENTRY_COUNT: usize = ");
    assert_eq!(number_after(header, "TILGHORZ_ENTRIES "), entries);
    assert_eq!(number_after(header, "There are "), entries);
    let unused = 64 * entries.div_ceil(64) - entries;
    let text = file(header);
    assert!(text.contains(&format!("; the other {unused} bits of a set are unused")));
    let version = number_after("../docs/UNICODE.md", "**Unicode ");
    assert!(text.contains(&format!(", those of Unicode {version}.")));
    let word = number_after(tables, "UNICODE_VERSION: u64 = ");
    assert_eq!(word / 256, version);
    assert_eq!(word, policy::version());
}

/// The bytes of a feed, as the source has them.
fn feed_bytes() -> usize {
    number_after(
        "../crates/policy_change/src/lib.rt",
        "CHANGING_BYTES: usize = ",
    ) as usize
}

/// The bytes of a store, as the source has them.
fn store_bytes() -> usize {
    number_after("../crates/store/src/lib.rt", "STORE_BYTES: usize = ") as usize
}

#[test]
fn the_bytes_of_a_store_agree_with_the_source() {
    let what = format!("It is {} bytes, which tilghorz_store_begin", store_bytes());
    assert!(file("../include/tilghorz.h").contains(&what));
}

#[test]
fn the_bytes_of_a_feed_agree_with_the_source() {
    let what = format!(
        " It is {} bytes, which tilghorz_feed_begin writes.",
        feed_bytes()
    );
    assert!(file("../include/tilghorz.h").contains(&what));
}

#[test]
fn the_parts_of_a_word_agree_with_the_source() {
    let nothing = "const NOTHING: u64 = 255;\n";
    assert!(file("../crates/tilghorz/src/answer_word.rt").contains(nothing));
    assert!(file("tilghorz/src/answer.rs").contains(nothing));
    assert!(
        file("../crates/tilghorz/src/answer_word.rt")
            .contains("VALUES: u64 = 0x100_0000_0000_0000;\n")
    );
    assert!(file("tilghorz/src/answer.rs").contains("NUMBER_SHIFT: u32 = 56;\n"));
    let half = "HALF_VALUES: u64 = 0x1000_0000;\n";
    assert!(file("../crates/tilghorz/src/answer_word.rt").contains(half));
    assert!(file("tilghorz/src/answer.rs").contains("SECOND_SHIFT: u32 = 28;\n"));
    let header = file("../include/tilghorz.h");
    assert!(
        header.contains("#define TILGHORZ_NUMBER(word) ((unsigned)((uint64_t)(word) >> 56))\n")
    );
    assert!(header.contains("#define TILGHORZ_FIRST(word) ((uint64_t)(word) & 0xFFFFFFF)\n"));
    let second = "#define TILGHORZ_SECOND(word) ((uint64_t)(word) >> 28 & 0xFFFFFFF)\n";
    assert!(header.contains(second));
    assert!(header.contains("\n#define TILGHORZ_NOTHING_TO_DO 255\n"));
    assert!(header.contains("\n *   255        nothing to do "));
}
