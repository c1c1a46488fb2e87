//! `policy carry`: stored policies carried over from an older and from a newer table to ours.

mod support;

use std::fs;
use std::path::Path;

use support::Folder;

/// The lines of our own table.
fn our_table() -> Vec<String> {
    let file = "../../crates/published_data/data/emoji-variation-sequences.txt";
    let file = Path::new(env!("CARGO_MANIFEST_DIR")).join(file);
    let lines = fs::read_to_string(file).expect("the table");
    lines.lines().map(str::to_owned).collect()
}

/// The first code points of the lines of a table, each once.
fn entries(table: &[String]) -> Vec<u32> {
    let lines = table.iter().filter(|line| !line.starts_with('#'));
    let digits = lines.filter_map(|line| line.split_whitespace().next());
    let mut entries: Vec<u32> = digits
        .map(|digits| u32::from_str_radix(digits, 16).expect("a code point"))
        .collect();
    entries.dedup();
    entries
}

/// The bytes of a policy under a table: of each set the entries that pass a test.
fn stored(entries: &[u32], version: u64, holds: impl Fn(usize, u32) -> bool) -> Vec<u8> {
    let set_bytes = entries.len().div_ceil(64) * 8;
    let mut bytes = vec![0; 8 + 4 * set_bytes];
    bytes[..8].copy_from_slice(&version.to_le_bytes());
    for set in 0..4 {
        for (place, &entry) in entries.iter().enumerate() {
            bytes[8 + set * set_bytes + place / 8] |= u8::from(holds(set, entry)) << (place % 8);
        }
    }
    bytes
}

/// Memberships that differ by character and set.
fn by_character(set: usize, entry: u32) -> bool {
    (entry as usize + set).is_multiple_of(3)
}

/// Carries a policy under a table over, and compares it with what document 02 says, entry by entry.
fn carries_from(name: &str, table: &[String], version: u64) {
    let folder = Folder::new(name);
    folder.write("old-emoji-variation-sequences.txt", table.join("\n") + "\n");
    let old = entries(table);
    folder.write("old", stored(&old, version, by_character));
    let arguments = [
        "policy",
        "carry",
        "--from",
        "old-emoji-variation-sequences.txt",
    ];
    let ran = folder.run(&[&arguments[..], &["old"]].concat());
    assert_eq!((ran.status, ran.err.as_str()), (0, ""));
    let ours = entries(&our_table());
    let default = folder.run(&["policy", "write"]).out;
    let is_default = |set: usize, entry: u32| {
        let place = ours.iter().position(|of| *of == entry).expect("an entry");
        default[8 + set * 48 + place / 8] >> (place % 8) & 1 == 1
    };
    let expected = stored(&ours, 15 * 256, |set, entry| {
        if old.contains(&entry) {
            by_character(set, entry)
        } else {
            is_default(set, entry)
        }
    });
    assert_eq!(ran.out, expected);
    folder.write("new", &ran.out);
    assert_eq!(folder.run(&["policy", "print", "new"]).status, 0);
}

/// A table of an older version: ours without the characters that Unicode 7.0 added.
#[test]
fn from_an_older_table() {
    let table = our_table().into_iter();
    let older: Vec<String> = table.filter(|line| !line.contains("# (7.0)")).collect();
    assert_eq!(entries(&older).len(), 260);
    carries_from("carry-older", &older, 6 * 256);
}

/// A table of a newer version: ours with 70 entries more, among them ones before the first and after the last.
#[test]
fn from_a_newer_table() {
    let mut table: Vec<String> = our_table();
    table.retain(|line| !line.starts_with('#'));
    table.extend((0x1FA70..0x1FA70 + 68).map(|code| format!("{code:04X} FE0E  ; text style;")));
    table.extend(["0022 FE0E ; text style;", "2603 FE0F ; emoji style;"].map(str::to_owned));
    table.push("2605 FE0F ; emoji style;".to_owned());
    let code = |line: &String| {
        let digits = line.split_whitespace().next().unwrap_or_default();
        u32::from_str_radix(digits, 16).unwrap_or_default()
    };
    table.sort_by_key(code);
    let newer = entries(&table);
    assert_eq!((newer.len(), newer[0]), (354 + 70, 0x22));
    carries_from("carry-newer", &table, 17 * 256);
}

#[test]
fn from_our_own_table_a_policy_stays_but_for_its_version() {
    let folder = Folder::new("carry-home");
    folder.write("table", our_table().join("\n"));
    folder.write("sheet", "30-39,2764\n\n2764\n\n");
    let stored = folder.run(&["policy", "write", "sheet"]).out;
    for version in [[0; 8], [0xFF; 8], [1, 14, 0, 0, 0, 0, 0, 0]] {
        folder.write("old", [&version[..], &stored[8..]].concat());
        let ran = folder.run(&["policy", "carry", "--from", "table", "old"]);
        assert_eq!((ran.status, ran.err.as_str()), (0, ""));
        assert_eq!(ran.out, stored);
    }
}

#[test]
fn what_does_not_fit_is_refused_with_its_reason() {
    let folder = Folder::new("carry-refused");
    folder.write(
        "table",
        "0023 FE0E ; text style;\n2764 FE0E ; text style;\n",
    );
    let carry = |bytes: &[u8]| {
        folder.write("old", bytes);
        let ran = folder.run(&["policy", "carry", "--from", "table", "old"]);
        assert_eq!((ran.status, ran.out.len()), (2, 0));
        ran.err
    };
    let error = carry(&[0; 200]);
    let expected = "tilghorz-host: old: refused 16: it has 200 bytes, and a policy for the 2 entries of table has 40\n";
    assert_eq!(error, expected);
    let error = carry(&[0; 32]);
    let expected =
        "refused 16: a policy of 32 bytes names no Unicode version. Put 8 bytes of 00 before it\n";
    assert!(error.ends_with(expected), "{error}");
    let mut unused = [0; 40];
    unused[..2].copy_from_slice(&[0, 14]);
    unused[8] = 4;
    let expected =
        "refused 2: the policy, of Unicode 14.0, has a bit set after the 2 entries of table\n";
    assert!(carry(&unused).ends_with(expected));
    folder.write(
        "table",
        "2764 FE0E ; text style;\n0023 FE0E ; text style;\n",
    );
    assert!(carry(&[0; 40]).contains("table: line 2 is below the line before it"));
}

#[test]
fn the_command_line_is_tested() {
    let folder = Folder::new("carry-arguments");
    for (arguments, message) in [
        (
            &["policy", "carry", "old"][..],
            "carry: --from FILE is missing",
        ),
        (
            &["policy", "carry", "--from", "table"],
            "carry: a file is missing",
        ),
        (
            &["policy", "print", "--from", "table"],
            "--from: unknown option",
        ),
        (
            &[
                "policy", "carry", "--from", "table", "--from", "table", "old",
            ],
            "--from: given twice",
        ),
    ] {
        let ran = folder.run(arguments);
        assert_eq!(ran.status, 2, "{arguments:?}");
        assert!(ran.err.contains(message), "{}", ran.err);
    }
}
