//! The build script says what is wrong with a file, in one line.

#[path = "../build/sources.rs"]
mod sources;
#[path = "../build/unicode_data.rs"]
mod unicode_data;

use std::path::Path;

use unicode_data::Tables;

/// A small file of properties in the form of emoji-data.txt.
const EMOJI_DATA: &str = "\
# Used with Emoji Version 15.0 and subsequent minor revisions (if any)
0023          ; Emoji                # a comment
0024..0026    ; Emoji
0030          ; Emoji
# Total elements: 5
0030          ; Emoji_Presentation
# Total elements: 1
1F3FB..1F3FC  ; Emoji_Modifier
# Total elements: 2
0024          ; Emoji_Modifier_Base
# Total elements: 1
#EOF
";

/// A small file in the form of emoji-variation-sequences.txt.
const SEQUENCES: &str = "\
# Used with Emoji Version 15.0 and subsequent minor revisions (if any)
0023 FE0E  ; text style;  # a comment
0023 FE0F  ; emoji style; # a comment
0030 FE0E  ; text style;
0030 FE0F  ; emoji style;

#Total sequences: 2

#EOF
";

/// The fault that is found in the two texts.
fn fault(emoji_data: &str, sequences: &str) -> String {
    match Tables::parse(emoji_data, sequences) {
        Ok(_) => panic!("no fault was found"),
        Err(fault) => {
            assert!(!fault.contains('\n'), "{fault}");
            fault
        }
    }
}

/// The fault that an edit of the first file makes.
fn data_fault(from: &str, to: &str) -> String {
    assert!(EMOJI_DATA.contains(from));
    fault(&EMOJI_DATA.replacen(from, to, 1), SEQUENCES)
}

/// The fault that an edit of the second file makes.
fn sequence_fault(from: &str, to: &str) -> String {
    assert!(SEQUENCES.contains(from));
    fault(EMOJI_DATA, &SEQUENCES.replacen(from, to, 1))
}

#[test]
fn ranges_that_touch_are_merged() {
    let tables = Tables::parse(EMOJI_DATA, SEQUENCES).expect("tables");
    assert_eq!(tables.version, "15.0");
    let source = tables.source();
    assert!(source.contains(
        "static EMOJI_RANGES: [(char, char); 2] = [\n    ('\\u{0023}', '\\u{0026}'),\n    ('\\u{0030}', '\\u{0030}'),\n];"
    ));
    assert!(source.contains(
        "static EMOJI_MODIFIERS: [char; 2] = [\n    '\\u{1F3FB}',\n    '\\u{1F3FC}',\n];"
    ));
    assert!(source.contains("static VARIATION_ENTRIES: [char; 2]"));
}

#[test]
fn faults_of_the_property_file_are_told() {
    let all = [
        (data_fault("#EOF", ""), "last line"),
        (data_fault("# Used with", "# Made for"), "no line begins"),
        (data_fault("15.0", "14.0"), "of version 14.0"),
        (data_fault("0024..0026", "0024..002"), "no code points"),
        (data_fault("0024..0026", "0026..0024"), "no code points"),
        (data_fault("0024..0026", "0023..0026"), "ascending"),
        (
            data_fault("0030          ; Emoji\n", "0030 Emoji\n"),
            "no property",
        ),
        (
            data_fault("elements: 5", "elements: 6"),
            "5 found, the file says 6",
        ),
        (data_fault("elements: 5", "elements: five"), "no number"),
        (
            data_fault("1F3FB..", "0031 ; Emoji\n1F3FB.."),
            "after the total",
        ),
        (data_fault("; Emoji_Modifier_Base", "; Other"), "no lines"),
    ];
    for (fault, part) in all {
        assert!(fault.starts_with(unicode_data::EMOJI_DATA), "{fault}");
        assert!(fault.contains(part), "{fault}");
    }
}

#[test]
fn faults_of_the_sequence_file_are_told() {
    let all = [
        (sequence_fault("#EOF", ""), "last line"),
        (
            sequence_fault("text style", "emoji style"),
            "no variation sequence",
        ),
        (
            sequence_fault("0030 FE0E  ; text style;\n", ""),
            "second line of a pair",
        ),
        (
            sequence_fault("0030 FE0F  ; emoji style;\n", ""),
            "only one line",
        ),
        (
            sequence_fault("sequences: 2", "sequences: 3"),
            "2 found, the file says 3",
        ),
        (sequence_fault("#Total sequences: 2", ""), "no total"),
    ];
    for (fault, part) in all {
        assert!(
            fault.starts_with(unicode_data::VARIATION_SEQUENCES),
            "{fault}"
        );
        assert!(fault.contains(part), "{fault}");
    }
}

#[test]
fn missing_source_files_are_told_in_one_line() {
    let nowhere = Path::new("no such folder");
    for (name, lines) in sources::FILES {
        let fault = sources::read(nowhere, name, lines).expect_err("a fault");
        assert!(!fault.contains('\n'), "{fault}");
        assert!(
            fault.contains("are missing") && fault.contains(sources::VARIABLE),
            "{fault}"
        );
    }
}

#[test]
fn another_number_of_lines_is_told() {
    let root = Path::new(env!("CARGO_MANIFEST_DIR"))
        .ancestors()
        .nth(2)
        .expect("a root");
    let fault = sources::read(&sources::folder(root), "presentation.rs", 41).expect_err("a fault");
    assert!(fault.contains("40 lines, INDEX.md says 41"), "{fault}");
}
