//! Damaged texts: `--repair`, and the command `repair`.

mod support;

use std::fs::{self, Permissions};
use std::os::unix::fs::{MetadataExt, PermissionsExt};

use support::{Folder, MESSAGE};

/// Two bad places, a character that breaks off and a byte that begins none, and a finding between them.
const DAMAGED: &[u8] = b"one\n\xE2\x9D two \xE2\x9D\xA4 \xFF\n";
/// The same repaired.
const REPAIRED: &str = "one\n\u{FFFD} two \u{2764} \u{FFFD}\n";
/// The same repaired and formatted.
const FORMATTED: &str = "one\n\u{FFFD} two \u{2764}\u{FE0E} \u{FFFD}\n";
/// The length of the longest text.
const LONGEST: usize = 16_777_216;

/// What is said of the damaged text.
fn told(name: &str, done: &str) -> String {
    format!("tilghorz-host: {name}: 2 bad places {done} by U+FFFD, the first at byte 4, in line 2")
}

/// The same of a command that tells offsets.
fn told_with_offsets(name: &str) -> String {
    told(name, "replaced") + "; offsets are those of the repaired text\n"
}

#[test]
fn a_damaged_text_is_repaired_and_then_formatted() {
    let folder = Folder::new("repair_format");
    folder.write("damaged", DAMAGED);
    let ran = folder.run(&["format", "damaged"]);
    assert_eq!((ran.status, ran.text()), (2, ""));
    let ran = folder.run(&["format", "--repair", "damaged"]);
    assert_eq!((ran.status, ran.text()), (0, FORMATTED));
    assert_eq!(ran.err, told("damaged", "replaced") + "\n");
    assert_eq!(folder.read("damaged"), DAMAGED);
    // The same from standard input, and of one text no summary is written.
    let ran = folder.run_with(&["format", "--repair", "-"], DAMAGED);
    assert_eq!((ran.status, ran.text()), (0, FORMATTED));
    assert_eq!(ran.err, told("standard input", "replaced") + "\n");
}

#[test]
fn a_well_formed_text_is_as_without_the_option() {
    let folder = Folder::new("repair_whole");
    folder.write("message", MESSAGE);
    for arguments in [
        &["format"][..],
        &["format", "--check"],
        &["report"],
        &["report", "--items"],
        &["show"],
        &["fix", "--at", "0"],
        &["fix", "--at", "1"],
    ] {
        let without = folder.run(&[arguments, &["message"]].concat());
        let with = folder.run(&[arguments, &["--repair", "message"]].concat());
        assert_eq!(
            (with.status, with.text()),
            (without.status, without.text()),
            "{arguments:?}"
        );
        assert_eq!(with.err.replace(" --repair", ""), without.err);
    }
    let ran = folder.run(&["repair", "message"]);
    assert_eq!((ran.status, ran.text(), ran.err.as_str()), (0, MESSAGE, ""));
    let ran = folder.run(&["repair"]);
    assert_eq!((ran.status, ran.text(), ran.err.as_str()), (0, "", ""));
}

#[test]
fn offsets_are_those_of_the_repaired_text() {
    let folder = Folder::new("repair_offsets");
    folder.write("damaged", DAMAGED);
    let told = told_with_offsets("damaged");
    let ran = folder.run(&["report", "--repair", "damaged"]);
    let lines = "12 15 0 0 0 0 0 0 0 1\ntotal 0 0 0 0 0 0 0 1\n";
    assert_eq!((ran.status, ran.text()), (0, lines));
    assert_eq!(ran.err, told);
    let ran = folder.run(&["show", "--all", "--repair", "damaged"]);
    let lines = "     1 | one
     2 | \u{FFFD} two \u{2764} \u{FFFD}
       |       ^
       | bytes 12 to 15: 1 decision; becomes \u{2764}<FE0E>
";
    assert_eq!((ran.status, ran.text()), (0, lines));
    assert_eq!(ran.err, told);
    let fix = ["fix", "--repair", "--decide", "emoji", "damaged", "--at"];
    let ran = folder.run(&[&fix[..], &["12"]].concat());
    let fixed = "one\n\u{FFFD} two \u{2764}\u{FE0F} \u{FFFD}\n";
    assert_eq!((ran.status, ran.text()), (0, fixed));
    assert_eq!(ran.err, told);
    // The offset of the damaged text is another one.
    let ran = folder.run(&[&fix[..], &["11"]].concat());
    assert_eq!((ran.status, ran.text()), (2, ""));
    let refused = "tilghorz-host: damaged: refused 4: no finding starts at this offset
the nearest finding is from byte 12 to 15; try: --at 12
";
    assert_eq!(ran.err, told + refused);
    let ran = folder.run(&[&fix[..], &["12", "--in-place"]].concat());
    assert_eq!((ran.status, ran.text()), (0, ""));
    assert_eq!(folder.read("damaged"), fixed.as_bytes());
}

#[test]
fn json_has_the_number_of_replacements_if_it_was_asked_for() {
    let folder = Folder::new("repair_json");
    folder.write("a", DAMAGED);
    folder.write("b", "plain");
    let ran = folder.run(&["report", "--json", "--repair", "a", "b"]);
    assert_eq!(ran.status, 0);
    let mut lines = ran.text().lines();
    let first = lines.next().expect("a line");
    assert!(
        first.contains(",\"replaced\":2,\"bytes\":20,\"findings\":[{\"start\":12,"),
        "{first}"
    );
    let second = lines.next().expect("a line");
    assert!(
        second.contains(",\"replaced\":0,\"bytes\":5,\"findings\":[]"),
        "{second}"
    );
    let summary =
        "tilghorz-host: 2 files: 1 with findings, 1 without; repaired: 1 file, 2 bad places\n";
    assert_eq!(ran.err, told_with_offsets("a") + summary);
    let ran = folder.run(&["report", "--json", "b"]);
    assert!(!ran.text().contains("\"replaced\""), "{}", ran.text());
}

#[test]
fn check_names_what_would_be_repaired_or_formatted() {
    let folder = Folder::new("repair_check");
    folder.write("t/damaged", DAMAGED);
    folder.write("t/message", MESSAGE);
    folder.write("t/only", b"\xFF");
    folder.write("t/plain", "plain");
    let only =
        "\ntilghorz-host: t/only: 1 bad place would be replaced by U+FFFD, at byte 0, in line 1\n";
    let told = told("t/damaged", "would be replaced") + only;
    let ran = folder.run(&["format", "--check", "--repair", "t"]);
    assert_eq!(
        (ran.status, ran.text()),
        (1, "t/damaged\nt/message\nt/only\n")
    );
    let summary = "tilghorz-host: 4 files: 3 would change, 1 would not; would be repaired: 2 files, 3 bad places\n";
    assert_eq!(ran.err, told.clone() + summary);
    let ran = folder.run(&["repair", "--check", "t"]);
    assert_eq!((ran.status, ran.text()), (1, "t/damaged\nt/only\n"));
    let summary = "tilghorz-host: 4 files: 2 would change, 2 would not; would be repaired: 2 files, 3 bad places\n";
    assert_eq!(ran.err, told + summary);
    // One that is only repaired differs, too.
    let ran = folder.run(&["format", "--check", "--repair", "--quiet", "t/only"]);
    assert_eq!((ran.status, ran.text()), (1, "t/only\n"));
    let ran = folder.run(&["repair", "--check", "t/message", "t/plain"]);
    assert_eq!((ran.status, ran.text()), (0, ""));
    assert_eq!(folder.read("t/damaged"), DAMAGED);
}

#[test]
fn files_are_repaired_and_formatted_in_place() {
    let folder = Folder::new("repair_in_place");
    folder.write("t/a", DAMAGED);
    folder.write("t/b", MESSAGE);
    folder.write("t/c", "plain");
    folder.write("t/d", b"\x00\xFF");
    folder.write("t/e", b"\xFF");
    fs::set_permissions(folder.path("t/a"), Permissions::from_mode(0o640)).expect("set");
    fs::set_permissions(folder.path("t/e"), Permissions::from_mode(0o444)).expect("set");
    let before = fs::metadata(folder.path("t/c")).expect("a file");
    let ran = folder.run(&["format", "--in-place", "--repair", "t"]);
    assert_eq!((ran.status, ran.text()), (2, ""));
    // What was not written was not repaired.
    let rest = "
tilghorz-host: t/e: it is read-only, and was left as it was
tilghorz-host: 5 files: 2 changed, 1 unchanged, 1 failed, 1 binary; repaired: 1 file, 2 bad places
";
    assert_eq!(ran.err, told("t/a", "replaced") + rest);
    assert_eq!(folder.read("t/a"), FORMATTED.as_bytes());
    assert_eq!(folder.read("t/b"), support::FORMATTED.as_bytes());
    assert_eq!(folder.read("t/d"), b"\x00\xFF");
    assert_eq!(folder.read("t/e"), b"\xFF");
    let mode = fs::metadata(folder.path("t/a")).expect("a file").mode();
    assert_eq!(mode & 0o777, 0o640);
    let after = fs::metadata(folder.path("t/c")).expect("a file");
    assert_eq!(after.ino(), before.ino());
    let ran = folder.run(&["format", "--in-place", "--repair", "t/a", "t/b"]);
    assert_eq!(ran.status, 0);
    assert_eq!(ran.err, "tilghorz-host: 2 files: 0 changed, 2 unchanged\n");
}

#[test]
fn the_command_repair_changes_bad_places_alone() {
    let folder = Folder::new("repair_alone");
    folder.write("damaged", DAMAGED);
    let told = told("damaged", "replaced") + "\n";
    let ran = folder.run(&["repair", "damaged"]);
    assert_eq!((ran.status, ran.text()), (0, REPAIRED));
    assert_eq!(ran.err, told);
    folder.write("message", MESSAGE);
    let ran = folder.run(&["repair", "--in-place", "damaged", "message"]);
    assert_eq!((ran.status, ran.text()), (0, ""));
    let summary =
        "tilghorz-host: 2 files: 1 changed, 1 unchanged; repaired: 1 file, 2 bad places\n";
    assert_eq!(ran.err, told + summary);
    assert_eq!(folder.read("damaged"), REPAIRED.as_bytes());
    assert_eq!(folder.read("message"), MESSAGE.as_bytes());
}

/// Which bytes a bad place has: those of the standard library's conversion.
#[test]
fn bad_places_are_those_of_the_standard_library() {
    let folder = Folder::new("repair_places");
    for bytes in [
        &b"\xE0\x80"[..],
        b"\xED\xA0\x80",
        b"\xF4\x90\x80\x80",
        b"\xF0\x80",
        b"\xE2\x9D",
        b"\xF0\x9F\x98A",
        b"\xC0\xC1\xF5\xFF",
        b"\xEF\xBF",
        b"a\x80\xBFb",
    ] {
        let ran = folder.run_with(&["repair"], bytes);
        let lossy = String::from_utf8_lossy(bytes);
        assert_eq!((ran.status, ran.text()), (0, &*lossy), "{bytes:X?}");
        let number = lossy.matches('\u{FFFD}').count();
        let several = if number == 1 { "" } else { "s" };
        let beginning = format!("tilghorz-host: standard input: {number} bad place{several} ");
        assert!(ran.err.starts_with(&beginning), "{}", ran.err);
    }
}

#[test]
fn quiet_tells_what_was_replaced_and_verbose_what_was_passed_over() {
    let folder = Folder::new("repair_quiet");
    folder.write("t/a", DAMAGED);
    folder.write("t/b", b"\xFF\x00");
    let ran = folder.run(&["report", "--repair", "--quiet", "t"]);
    assert_eq!((ran.status, ran.err), (0, told_with_offsets("t/a")));
    let ran = folder.run(&["repair", "--check", "--verbose", "t"]);
    let rest = "
tilghorz-host: t/b: passed over: it is binary, with a byte 00
tilghorz-host: 2 files: 1 would change, 0 would not, 1 binary; would be repaired: 1 file, 2 bad places
";
    assert_eq!(ran.err, told("t/a", "would be replaced") + rest);
}

/// A file that is named is taken, and one with a byte 00 and bad places may be a picture.
#[test]
fn a_binary_file_is_repaired_in_place_only_if_it_is_asked_for() {
    let folder = Folder::new("repair_binary");
    let bytes = b"\xFF\xD8 1\xEF\xB8\x8E\x00";
    for arguments in [
        &["format", "--repair"][..],
        &["repair"],
        &["fix", "--repair", "--at", "7"],
    ] {
        folder.write("picture", bytes);
        let arguments = [arguments, &["--in-place", "picture"]].concat();
        let ran = folder.run(&arguments);
        assert_eq!((ran.status, ran.text()), (2, ""));
        let message = "tilghorz-host: picture: it is binary, with a byte 00 and 2 bad places, and was left as it was (--binary takes it)\n";
        assert!(ran.err.ends_with(message), "{}", ran.err);
        assert_eq!(folder.read("picture"), bytes);
        let ran = folder.run(&[&arguments[..], &["--binary"]].concat());
        assert_eq!((ran.status, ran.text()), (0, ""), "{}", ran.err);
        assert!(
            folder
                .read("picture")
                .starts_with("\u{FFFD}\u{FFFD} 1".as_bytes())
        );
    }
    // One that is well-formed is changed as without the option.
    folder.write("zeros", "1\u{FE0E}\0");
    let ran = folder.run(&["format", "--repair", "--in-place", "zeros"]);
    assert_eq!((ran.status, ran.err.as_str()), (0, ""));
    assert_eq!(folder.read("zeros"), b"1\0");
    // Standard output takes it.
    folder.write("picture", bytes);
    let ran = folder.run(&["repair", "picture"]);
    assert_eq!(ran.status, 0);
    assert_eq!(ran.text(), String::from_utf8_lossy(bytes));
}

/// Limit 1 is on the bytes taken in for the repair, and on the repaired text for what comes after it.
#[test]
fn a_text_may_be_too_long_before_or_after_the_repair() {
    let folder = Folder::new("repair_limit");
    let mut text = vec![b'a'; LONGEST];
    text[5] = 0xFF;
    folder.write("grows", &text);
    let message = "tilghorz-host: grows: refused 1: the text is longer than 16,777,216 bytes after the repair: \
                   with U+FFFD for 1 bad place it has 16777218 bytes\n";
    for (arguments, out) in [
        (&["format"][..], ""),
        (&["format", "--check"], ""),
        (&["format", "--in-place"], ""),
        (&["report"], "refused 1\n"),
        (&["show"], ""),
    ] {
        let ran = folder.run(&[arguments, &["--repair", "grows"]].concat());
        assert_eq!((ran.status, ran.text()), (2, out), "{arguments:?}");
        assert_eq!(ran.err, message, "{arguments:?}");
    }
    let ran = folder.run(&["report", "--json", "--repair", "grows"]);
    let object = ",\"replaced\":1,\"error\":{\"kind\":\"refused\",\"number\":1,";
    assert!(ran.text().contains(object), "{}", ran.text());
    let ran = folder.run(&["fix", "--at", "0", "--repair", "grows"]);
    assert_eq!((ran.status, ran.text()), (2, ""));
    assert!(ran.err.ends_with(message), "{}", ran.err);
    assert!(folder.read("grows") == text);
    let ran = folder.run(&["repair", "grows"]);
    assert_eq!(ran.status, 0);
    assert!(ran.out == String::from_utf8_lossy(&text).as_bytes());
    text.push(b'a');
    folder.write("long", &text);
    for arguments in [&["repair"][..], &["format", "--repair"]] {
        let ran = folder.run(&[arguments, &["long"]].concat());
        assert_eq!((ran.status, ran.text()), (2, ""));
        let message = "tilghorz-host: long: refused 1: the text is longer than 16,777,216 bytes\n";
        assert_eq!(ran.err, message);
    }
}

#[test]
fn the_output_is_the_same_for_every_number_of_threads() {
    let folder = Folder::new("repair_threads");
    for number in 0..40 {
        let text = [DAMAGED, "\u{2764}".repeat(number).as_bytes()].concat();
        folder.write(&format!("t/{number:02}"), &text[number % 3..]);
    }
    let run = |jobs| {
        let ran = folder.run(&["report", "--repair", "--jobs", jobs, "t"]);
        (ran.status, ran.out, ran.err)
    };
    let one = run("1");
    assert!(
        one.2.ends_with("; repaired: 40 files, 80 bad places\n"),
        "{}",
        one.2
    );
    assert!(one == run("7"));
}
