//! Policy sheets: they are taken wherever a policy is, printed, and explained where they are wrong.

mod support;

use support::{Folder, MESSAGE};

/// A sheet under which digits are bare, and a heart without a selector becomes an emoji.
const SHEET: &str = "30-39\n\n30-39\n\n";

/// The message under this sheet.
const UNDER_SHEET: &str = "1 \u{2764}\u{FE0F}";

#[test]
fn a_sheet_is_taken_wherever_a_policy_is() {
    let folder = Folder::new("sheet");
    folder.write("sheet", SHEET);
    folder.write("message", MESSAGE);
    let stored = folder.run(&["policy", "write", "sheet"]);
    assert_eq!((stored.status, stored.out.len()), (0, 200));
    folder.write("stored", &stored.out);
    let ran = folder.run(&["policy", "compare", "sheet", "stored"]);
    assert_eq!((ran.status, ran.text()), (0, ""));
    for arguments in [
        &["format", "message"][..],
        &["report", "message"],
        &["report", "--json", "message"],
        &["show", "message"],
        &["fix", "--at", "0", "message"],
        &["fix", "--at", "5", "--decide", "text", "message"],
    ] {
        let with = |policy| folder.run(&[arguments, &["--policy", policy]].concat());
        let (sheet, stored) = (with("sheet"), with("stored"));
        assert_eq!((sheet.status, &sheet.err), (0, &String::new()));
        assert_eq!(sheet.out, stored.out, "{arguments:?}");
    }
    for arguments in [&["format"][..], &["format", "--follow"]] {
        let arguments = [arguments, &["--policy", "sheet"]].concat();
        let ran = folder.run_with(&arguments, MESSAGE.as_bytes());
        assert_eq!((ran.status, ran.text()), (0, UNDER_SHEET));
    }
}

#[test]
fn print_writes_the_sheet_and_write_takes_it() {
    let folder = Folder::new("print-sheet");
    let default = folder.run(&["policy", "print"]);
    assert_eq!((default.status, default.text().lines().count()), (0, 4));
    folder.write("default", &default.out);
    let stored = folder.run(&["policy", "write", "default"]);
    assert_eq!(stored.out, folder.run(&["policy", "write"]).out);
    folder.write("mixed", "0032,31,31-33,0000A9\n\n\n2764\n");
    let ran = folder.run(&["policy", "print", "mixed"]);
    assert_eq!((ran.status, ran.text()), (0, "31-33,A9\n\n\n2764\n"));
    let edited = folder.run(&[
        "policy",
        "write",
        "--take",
        "prefer_bare",
        "ordinary",
        "32",
        "mixed",
    ]);
    folder.write("edited", edited.out);
    let ran = folder.run(&["policy", "print", "edited"]);
    assert_eq!((ran.status, ran.text()), (0, "31,33,A9\n\n\n2764\n"));
    let ran = folder.run(&["policy", "print", "--members", "edited"]);
    let lines: Vec<&str> = ran.text().lines().collect();
    assert_eq!(lines[1], " 0031 0033 00A9");
    assert!(lines[0].starts_with("prefer_bare ordinary: 3 of "));
}

#[test]
fn what_is_wrong_with_a_sheet_is_told_with_line_and_column() {
    let folder = Folder::new("wrong-sheet");
    for (sheet, number, place, wrong) in [
        (
            "\n\n276\n\n",
            11,
            "at byte 5, in line 3, column 4",
            "three digits: ",
        ),
        (
            "0000030\n\n\n\n",
            11,
            "at byte 6, in line 1, column 7",
            "a seventh digit: ",
        ),
        (
            "30,a9\n\n\n\n",
            11,
            "at byte 3, in line 1, column 4",
            "a digit in lower case: ",
        ),
        (
            "30, 31\n\n\n\n",
            11,
            "at byte 3, in line 1, column 4",
            "a blank: ",
        ),
        (
            "30\r\n\n\n\n",
            11,
            "at byte 2, in line 1, column 3",
            "a carriage return: ",
        ),
        (
            "30,,31\n\n\n\n",
            11,
            "at byte 3, in line 1, column 4",
            "nothing between two commas\n",
        ),
        (
            "\n30,\n\n\n",
            11,
            "at byte 4, in line 2, column 4",
            "a comma at the end of the line\n",
        ),
        (
            "\n\n\n\n30\n",
            11,
            "at byte 4, in line 5, column 1",
            "this is after the fourth line, ",
        ),
        (
            "\n\n\n30",
            11,
            "at byte 5, in line 4, column 3",
            "the sheet breaks off: ",
        ),
        (
            "",
            11,
            "at byte 0, in line 1, column 1",
            "the sheet breaks off: ",
        ),
        (
            "39-30x",
            11,
            "at byte 5, in line 1, column 6",
            "the byte 78 (x): ",
        ),
        (
            "39-30,",
            11,
            "at byte 0, in line 1, column 1",
            "the range 39-30 ends below its start\n",
        ),
        (
            "39-30",
            11,
            "at byte 5, in line 1, column 6",
            "the sheet breaks off: ",
        ),
        (
            "\n30-FFFFFF\n\n\n",
            12,
            "at byte 4, in line 2, column 4",
            "FFFFFF has no variation sequence, ",
        ),
    ] {
        folder.write("sheet", sheet);
        let ran = folder.run_with(&["format", "--policy", "sheet"], MESSAGE.as_bytes());
        assert_eq!((ran.status, ran.text()), (2, ""), "{sheet:?}");
        let what = ["not a policy sheet", "no variation entry"][number - 11];
        let expected = format!("tilghorz-host: sheet: refused {number}: {what} {place}: {wrong}");
        assert!(ran.err.starts_with(&expected), "{sheet:?}: {}", ran.err);
    }
}

#[test]
fn a_file_with_a_byte_00_is_a_stored_policy() {
    let folder = Folder::new("stored-policy");
    for bytes in [&b"30\0\n\n\n"[..], &[0; 199], &[0; 201]] {
        folder.write("policy", bytes);
        let ran = folder.run(&["policy", "print", "policy"]);
        assert_eq!((ran.status, ran.text()), (2, ""));
        let expected = "tilghorz-host: policy: refused 2: these bytes are not a policy";
        assert!(ran.err.starts_with(expected), "{}", ran.err);
    }
    let mut bytes = [0; 200];
    bytes[1] = 15;
    folder.write("policy", bytes);
    let ran = folder.run(&["policy", "print", "policy"]);
    assert_eq!((ran.status, ran.text()), (0, "\n\n\n\n"));
    let ran = folder.run(&["policy", "print", "missing"]);
    assert_eq!((ran.status, ran.text()), (2, ""));
}
