//! Each command on a message, a damaged text and an empty one.

mod support;

use std::fs;
use std::path::Path;
use std::process::Command;

use support::{COMMAND, FORMATTED, Folder, MESSAGE};

/// A text with a character cut off in its second line.
const DAMAGED: &[u8] = b"one\ntwo \xE2\x9D";

#[test]
fn format_writes_the_text() {
    let folder = Folder::new("format");
    folder.write("message", MESSAGE);
    let file = folder.run(&["format", "message"]);
    let input = folder.run_with(&["format"], MESSAGE.as_bytes());
    let dash = folder.run_with(&["format", "-"], MESSAGE.as_bytes());
    for ran in [file, input, dash] {
        assert_eq!(
            (ran.status, ran.text(), ran.err.as_str()),
            (0, FORMATTED, "")
        );
    }
    assert_eq!(folder.read("message"), MESSAGE.as_bytes());
    let empty = folder.run(&["format"]);
    assert_eq!(
        (empty.status, empty.text(), empty.err.as_str()),
        (0, "", "")
    );
}

#[test]
fn a_refused_text_is_named_with_its_offset() {
    let folder = Folder::new("refused");
    folder.write("damaged", DAMAGED);
    let message = "damaged: refused 3: not well-formed UTF-8 at byte 8, in line 2\n";
    for (command, out) in [("format", ""), ("show", ""), ("report", "refused 3 8\n")] {
        let ran = folder.run(&[command, "damaged"]);
        assert_eq!((ran.status, ran.text()), (2, out));
        assert_eq!(ran.err, format!("tilghorz-host: {message}"));
    }
    let ran = folder.run_with(&["format", "--check"], DAMAGED);
    assert_eq!((ran.status, ran.text()), (2, ""));
    assert!(
        ran.err
            .starts_with("tilghorz-host: standard input: refused 3: "),
        "{}",
        ran.err
    );
}

#[test]
fn check_tells_by_its_status() {
    let folder = Folder::new("check");
    let changed = folder.run_with(&["format", "--check"], MESSAGE.as_bytes());
    assert_eq!((changed.status, changed.text()), (1, "-\n"));
    let unchanged = folder.run_with(&["format", "--check"], FORMATTED.as_bytes());
    assert_eq!((unchanged.status, unchanged.text()), (0, ""));
}

#[test]
fn report_has_the_lines_of_document_01() {
    let folder = Folder::new("report");
    let ran = folder.run_with(&["report"], MESSAGE.as_bytes());
    let lines = "0 4 0 0 0 0 0 0 1 0\n5 8 0 0 0 0 0 0 0 1\ntotal 0 0 0 0 0 0 1 1\n";
    assert_eq!((ran.status, ran.text(), ran.err.as_str()), (0, lines, ""));
    let ran = folder.run_with(&["report", "--items"], MESSAGE.as_bytes());
    let lines = "0 4 emoji-headed complete\n4 5 passthrough complete\n5 8 emoji-headed complete\n";
    assert_eq!((ran.status, ran.text()), (0, lines));
}

#[test]
fn report_names_the_counts_in_json() {
    let folder = Folder::new("json");
    folder.write("a\"b", "a\u{FE0F}");
    let ran = folder.run(&["report", "--json", "--items", "a\"b"]);
    let counts = "\"unsanctioned\":1,\"modifier_defective\":0,\"additional_defective\":0,\"tag_conflicting\":0,\
                  \"tag_forced\":0,\"tag_redundant\":0,\"policy_redundant\":0,\"decisions\":0";
    let places = |start: usize, end: usize| {
        format!(
            "\"char_start\":{start},\"char_end\":{end},\"utf16_start\":{start},\"utf16_end\":{end}"
        )
    };
    let expected = format!(
        "\"bytes\":4,\"findings\":[{{\"start\":1,\"end\":4,\"line\":1,\"column\":2,{counts},{},\"replacement\":\"\"}}],\
         \"totals\":{{{counts}}},\"items\":[\
         {{\"start\":0,\"end\":1,\"kind\":\"passthrough\",\"tags_complete\":true,{}}},\
         {{\"start\":1,\"end\":4,\"kind\":\"unsanctioned-selectors\",\"tags_complete\":true,{}}}]}}\n",
        places(1, 2),
        places(0, 1),
        places(1, 2)
    );
    let beginning = "{\"file\":\"a\\\"b\",\"tool\":\"tilghorz-host 0.1.0\",\"unicode\":\"15.0\",\"policy_sha256\":\"";
    assert_eq!(ran.status, 0);
    assert!(ran.text().starts_with(beginning), "{}", ran.text());
    assert!(ran.text().ends_with(&expected), "{}", ran.text());
}

#[test]
fn report_has_a_short_line_for_each_finding() {
    let folder = Folder::new("short");
    folder.write(
        "message",
        format!("Hi\n\u{4E2D} {MESSAGE} a\u{FE0F}").as_bytes(),
    );
    folder.write("damaged", DAMAGED);
    let first = "message:2:3: 1 policy-redundant; becomes 1\n";
    let second = "message:2:6: 1 decision; becomes \u{2764}<FE0E>\n";
    let third = "message:2:9: 1 unsanctioned; becomes nothing\n";
    let ran = folder.run(&["report", "--format", "short", "message"]);
    assert_eq!(
        (ran.status, ran.text()),
        (0, &*[first, second, third].concat())
    );
    let ran = folder.run(&["report", "--format", "short", "--at", "2:5", "message"]);
    assert_eq!((ran.status, ran.text()), (0, first));
    let around = ["--from", "2:4", "--to", "2:9"];
    let ran = folder.run(&[&["report", "--format=short", "message"], &around[..]].concat());
    assert_eq!((ran.status, ran.text()), (0, &*[second, first].concat()));
    let ran = folder.run(&["report", "--format", "short", "damaged", "missing"]);
    let damaged = "damaged:2:5: refused 3: not well-formed UTF-8 at byte 8\n";
    let missing = "missing:1:1: No such file or directory (os error 2)\n";
    assert_eq!((ran.status, ran.text()), (2, &*[damaged, missing].concat()));
    let ran = folder.run_with(&["report", "--format", "short"], MESSAGE.as_bytes());
    assert!(ran.text().starts_with("-:1:1: 1 policy-redundant"));
}

/// The examples of `help findings` are what format does, each with the count of its name.
#[test]
fn the_findings_of_the_help_are_true() {
    let folder = Folder::new("findings");
    let help = folder.run(&["help", "findings"]);
    let text = |shown: &str| {
        let mut text = String::new();
        for part in shown.split('<') {
            match part.split_once('>') {
                Some((code, rest)) => {
                    let code = u32::from_str_radix(code, 16).expect("a code point");
                    text.push(char::from_u32(code).expect("a character"));
                    text.push_str(rest);
                }
                None => text.push_str(part),
            }
        }
        text
    };
    let (mut name, mut seen) = ("", Vec::new());
    for line in help.text().lines() {
        if let Some(entry) = line
            .strip_prefix("  ")
            .filter(|entry| !entry.starts_with(' '))
        {
            name = entry.split(' ').next().expect("a name");
        }
        let Some((before, after)) = line.trim().split_once(" becomes ") else {
            continue;
        };
        let before = text(before);
        let ran = folder.run_with(&["format"], before.as_bytes());
        assert_eq!(ran.text(), text(after), "{line}");
        let ran = folder.run_with(&["report", "--json"], before.as_bytes());
        let (_, totals) = ran.text().split_once("\"totals\"").expect("totals");
        let count = format!("\"{}\":1", name.replace('-', "_"));
        assert!(totals.contains(&count), "{count} {totals}");
        seen.push(name);
    }
    assert_eq!(
        seen,
        [
            "unsanctioned",
            "modifier-defective",
            "additional-defective",
            "tag-conflicting",
            "tag-forced",
            "tag-redundant",
            "policy-redundant",
            "decisions"
        ]
    );
}

#[test]
fn report_has_the_findings_around_a_stretch() {
    let folder = Folder::new("around");
    folder.write("message", format!("Hi\n{MESSAGE}").as_bytes());
    let report = |arguments: &[&str]| folder.run(&[&["report", "message"], arguments].concat());
    let (first, second) = ("3 7 0 0 0 0 0 0 1 0", "8 11 0 0 0 0 0 0 0 1");
    for (arguments, lines) in [
        (
            vec!["--from", "3", "--to", "11"],
            format!("inside {first}\ninside {second}\n"),
        ),
        (
            vec!["--from", "4", "--to", "11"],
            format!("inside {second}\nsharing {first}\n"),
        ),
        (vec!["--to", "2:2"], format!("sharing {first}\n")),
        (vec!["--from", "2:3"], format!("inside {second}\n")),
        (vec!["--from", "5", "--to", "5"], String::new()),
        (vec!["--from", "9", "--to", "4"], String::new()),
        (vec!["--at", "7"], format!("distance 1: {first}\n")),
        (vec!["--at", "2:3"], format!("distance 1: {first}\n")),
        (vec!["--at", "20"], format!("distance 10: {second}\n")),
    ] {
        let ran = report(&arguments);
        assert_eq!(
            (ran.status, ran.text()),
            (0, lines.as_str()),
            "{arguments:?}"
        );
    }
    let ran = report(&["--at", "0", "--json"]);
    assert!(
        ran.text().contains("\"nearest\":{\"start\":3,"),
        "{}",
        ran.text()
    );
    assert!(
        ran.text().ends_with("},\"distance\":3}\n"),
        "{}",
        ran.text()
    );
    let ran = report(&["--from", "4", "--json"]);
    assert!(
        ran.text().contains("\"inside\":[{\"start\":8,"),
        "{}",
        ran.text()
    );
    assert!(
        ran.text().contains("\"sharing\":[{\"start\":3,"),
        "{}",
        ran.text()
    );
    let ran = report(&["--at", "4:1"]);
    assert_eq!((ran.status, ran.text()), (2, ""));
    assert!(
        ran.err.contains("message: the text has no place 4:1\n"),
        "{}",
        ran.err
    );
    let ran = folder.run_with(&["report", "--at", "0"], b"plain");
    assert_eq!((ran.status, ran.text()), (0, "none\n"));
}

#[test]
fn fix_mends_one_finding() {
    let folder = Folder::new("fix");
    folder.write("message", MESSAGE);
    let fixed = |arguments: &[&str]| folder.run(&[&["fix", "message", "--at"], arguments].concat());
    let ran = fixed(&["0"]);
    assert_eq!((ran.status, ran.text()), (0, "1 \u{2764}"));
    let ran = fixed(&["5", "--decide", "emoji"]);
    assert_eq!((ran.status, ran.text()), (0, "1\u{FE0E} \u{2764}\u{FE0F}"));
    let ran = fixed(&["5"]);
    assert_eq!((ran.status, ran.text()), (2, ""));
    assert!(
        ran.err
            .contains("message: refused 5: the finding needs exactly 1 decision\n"),
        "{}",
        ran.err
    );
    assert!(
        ran.err.ends_with(
            "try: --decide text, with text, emoji or default for each; or --decide default for all\n"
        ),
        "{}",
        ran.err
    );
    let ran = fixed(&["5", "--decide", "text,emoji"]);
    assert_eq!((ran.status, ran.text()), (2, ""));
    let ran = fixed(&["0", "--decide", "default"]);
    assert_eq!((ran.status, ran.text()), (0, "1 \u{2764}"));
    let ran = fixed(&["0", "--decide", "text"]);
    assert!(
        ran.err
            .ends_with("the finding has no decision; try it without --decide\n"),
        "{}",
        ran.err
    );
    let ran = fixed(&["4"]);
    assert!(
        ran.err
            .contains("message: refused 4: no finding starts at this offset\n"),
        "{}",
        ran.err
    );
    assert!(
        ran.err
            .contains("the nearest finding is from byte 0 to 4; try: --at 0\n"),
        "{}",
        ran.err
    );
    let ran = fixed(&["0", "--in-place"]);
    assert_eq!((ran.status, ran.text(), ran.err.as_str()), (0, "", ""));
    assert_eq!(folder.read("message"), "1 \u{2764}".as_bytes());
}

#[test]
fn fix_mends_several_findings() {
    let folder = Folder::new("fix_several");
    let heart = "\u{2764}";
    folder.write("text", format!("Hi\n{heart} 1\u{FE0E}\n{heart}{heart}"));
    let fixed = |arguments: &[&str]| folder.run(&[&["fix"], arguments, &["text"]].concat());
    // Every place is one of the text as it was, in any order.
    for places in [["2:1", "2:3", "3:2"], ["3", "7", "15"]] {
        let [first, second, third] = places;
        let ran = fixed(&[
            "--at",
            third,
            "--decide",
            "default",
            "--at",
            first,
            "--decide=emoji",
            "--at",
            second,
        ]);
        let expected = format!("Hi\n{heart}\u{FE0F} 1\n{heart}{heart}\u{FE0E}");
        assert_eq!(
            (ran.status, ran.text(), ran.err.as_str()),
            (0, &*expected, "")
        );
    }
    // If one cannot be mended, none is.
    let ran = fixed(&["--at", "2:1", "--decide", "text", "--at", "2:2"]);
    assert_eq!((ran.status, ran.text()), (2, ""));
    assert_eq!(
        ran.err,
        "tilghorz-host: text: refused 4: no finding starts at this offset (--at 2:2)\n\
         the nearest finding is from byte 3 to 6; try: --at 2:1\n"
    );
    let ran = fixed(&["--at", "4:1"]);
    assert_eq!((ran.status, ran.text()), (2, ""));
    assert!(
        ran.err.contains("text: the text has no place 4:1\n"),
        "{}",
        ran.err
    );
    let ran = fixed(&["--at", "3", "--at", "2:1"]);
    assert_eq!((ran.status, ran.text()), (2, ""));
    assert!(
        ran.err.contains("fix: --at 2:1: given twice\n"),
        "{}",
        ran.err
    );
    // A file can have the name of a decision.
    let ran = folder.run(&["fix", "--at", "3", "--decide", "emoji", "text"]);
    assert!(
        ran.text().starts_with("Hi\n\u{2764}\u{FE0F} "),
        "{}",
        ran.err
    );
}

/// A finding with three decisions, of which the policy decides one otherwise than the two others.
#[test]
fn fix_decides_as_the_policy_does() {
    let folder = Folder::new("fix_default");
    let (heart, cloud) = ("\u{2764}", "\u{2601}");
    let text = format!("a {heart}\u{200D}{cloud}\u{200D}{heart}");
    folder.write("text", &text);
    let edits = ["--take", "bare_as_text", "ordinary", "2601"];
    let own = folder.run(&[&["policy", "write"], &edits[..]].concat());
    folder.write("own", &own.out);
    let fixed = |list: &str| {
        folder.run(&[
            "fix", "--policy", "own", "--at", "2", "--decide", list, "text",
        ])
    };
    let formatted = folder.run(&["format", "--policy", "own", "text"]);
    assert_eq!(fixed("default").text(), formatted.text());
    assert_eq!(fixed("default,default,default").text(), formatted.text());
    assert_eq!(fixed("text,emoji,text").text(), formatted.text());
    let other = fixed("emoji,default,default");
    assert_eq!(other.text(), fixed("emoji,emoji,text").text());
    let ran = fixed("default,default");
    assert_eq!((ran.status, ran.text()), (2, ""));
    assert!(ran.err.contains("needs exactly 3 decisions"), "{}", ran.err);
}

#[test]
fn show_makes_selectors_visible() {
    let folder = Folder::new("show");
    let text = "Hi\r\n1\u{FE0E} \u{2764}\r\n";
    let found = "     2 | 1<FE0E> \u{2764}
       | ^~~~~~~ ^
       | bytes 4 to 8: 1 policy-redundant; becomes 1
       | bytes 9 to 12: 1 decision; becomes \u{2764}<FE0E>
";
    let all = format!("     1 | Hi\n{found}");
    for (arguments, expected) in [
        (&["show"][..], found),
        (&["show", "--context", "0"], found),
        (&["show", "--context=1"], &all),
        (&["show", "--all"], &all),
    ] {
        let ran = folder.run_with(arguments, text.as_bytes());
        assert_eq!(
            (ran.status, ran.text(), ran.err.as_str()),
            (0, expected, "")
        );
    }
    let empty = folder.run(&["show"]);
    assert_eq!((empty.status, empty.text()), (0, ""));
    // Of several files those without findings are named only if all is shown.
    folder.write("found", "\u{A9}");
    folder.write("clean", "plain");
    let ran = folder.run(&["show", "--quiet", "clean", "found"]);
    assert!(ran.text().starts_with("==> found <==\n     1 | \u{A9}\n"));
    let ran = folder.run(&["show", "--quiet", "--all", "clean", "found"]);
    assert!(
        ran.text()
            .starts_with("==> clean <==\n     1 | plain\n==> found <==\n")
    );
}

/// A table of all findings of such a text would have 110 MiB, and so would what is shown of it.
#[test]
fn show_needs_memory_for_a_part_of_the_text() {
    let folder = Folder::new("memory");
    for (name, line_feeds) in [("lines", 64), ("line", usize::MAX)] {
        let signs = (1..=1 << 20).map(|number| match number % line_feeds {
            0 => "\u{A9}\n",
            _ => "\u{A9}",
        });
        folder.write(name, signs.collect::<String>());
    }
    for names in [&["lines"][..], &["line"], &["line", "lines"]] {
        let limited = "ulimit -v 49152; exec \"$0\" show --quiet --jobs 1 \"$@\" | tail -n 1";
        let mut shell = Command::new("bash");
        shell.args(["-o", "pipefail", "-c", limited, COMMAND]);
        shell.args(names);
        let ran = folder.run_command(shell, b"");
        assert_eq!((ran.status, ran.err.as_str()), (0, ""));
        assert!(ran.text().contains("1 decision; becomes"), "{}", ran.text());
    }
}

#[test]
fn policies_are_written_printed_compared_and_used() {
    let folder = Folder::new("policy");
    let default = folder.run(&["policy", "write"]);
    assert_eq!((default.status, default.out.len()), (0, 200));
    folder.write("default", &default.out);
    let ran = folder.run(&["policy", "compare", "default"]);
    assert_eq!((ran.status, ran.text()), (0, ""));
    let edits = [
        "--take",
        "bare_as_text",
        "ordinary",
        "2764",
        "--add",
        "prefer_bare",
        "keycap",
        "U+31",
    ];
    let own = folder.run(&[&["policy", "write"], &edits[..], &["default"]].concat());
    folder.write("own", &own.out);
    let ran = folder.run(&["policy", "compare", "default", "own"]);
    let lines = "0031 keycap: BareToText, TextToBare\n2764 ordinary: BareToText, BareToEmoji\n";
    assert_eq!((ran.status, ran.text()), (1, lines));
    let ran = folder.run(&["policy", "print", "--members", "own"]);
    let mut lines = ran.text().lines();
    assert!(lines.any(|line| line.starts_with("prefer_bare keycap: 1 of ")));
    assert_eq!(lines.next(), Some(" 0031"));
    let ran = folder.run_with(&["format", "--policy", "own"], MESSAGE.as_bytes());
    assert_eq!((ran.status, ran.text()), (0, "1 \u{2764}\u{FE0F}"));
    folder.write("short", &own.out[1..]);
    let ran = folder.run_with(&["format", "--policy=short"], MESSAGE.as_bytes());
    assert_eq!((ran.status, ran.text()), (2, ""));
    assert!(
        ran.err
            .contains("short: refused 2: these bytes are not a policy"),
        "{}",
        ran.err
    );
}

#[test]
fn policies_of_another_version_and_without_one_are_named() {
    let folder = Folder::new("versions");
    let default = folder.run(&["policy", "write"]).out;
    let older = [&[1, 14], &default[2..]].concat();
    folder.write("older", &older);
    folder.write("unversioned", &default[8..]);
    for command in [&["policy", "print"][..], &["format", "--policy"]] {
        let ran = folder.run(&[command, &["older"]].concat());
        assert_eq!((ran.status, ran.text()), (2, ""));
        let message =
            "older: refused 15: the policy is of Unicode 14.1, and the tables are of Unicode 15.0";
        assert!(ran.err.contains(message), "{}", ran.err);
        let ran = folder.run(&[command, &["unversioned"]].concat());
        assert_eq!((ran.status, ran.text()), (2, ""));
        let message = "unversioned: refused 2: a policy of 192 bytes names no Unicode version. If it is of 15.0, write it anew: \
            (printf '\\000\\017\\000\\000\\000\\000\\000\\000'; cat unversioned) > NEW";
        assert!(ran.err.contains(message), "{}", ran.err);
    }
    let ran = folder.run(&["version"]);
    let line = ran.text().strip_suffix('\n').expect("a line");
    let parts: Vec<&str> = line.split(", ").collect();
    assert!(parts[0].starts_with("tilghorz-host 0."), "{line}");
    assert_eq!((parts[1], parts.len()), ("Unicode 15.0", 3));
    assert!(parts[2].contains("kit"), "{line}");
}

/// `tests/programs` has what the proved programs write. Where they refuse, `format` writes nothing here.
#[test]
fn the_stored_runs_of_the_proved_programs_are_met() {
    let stored = Path::new(env!("CARGO_MANIFEST_DIR")).join("../../tests/programs");
    let folder = Folder::new("stored");
    for name in [
        "copyright_signs",
        "damaged",
        "empty",
        "format_full",
        "reads_refused",
        "thread",
        "unchanged",
    ] {
        let read = |extension| {
            fs::read(stored.join(name).with_extension(extension)).expect("a stored run")
        };
        // The program `report` refuses this one.
        if name != "format_full" {
            let ran = folder.run_with(&["report"], &read("in"));
            assert!(ran.out == read("report"), "{name}");
        }
        let ran = folder.run_with(&["format"], &read("in"));
        if ran.status == 0 {
            assert!(ran.out == read("format"), "{name}");
        } else {
            assert_eq!((ran.status, name, ran.out.len()), (2, "damaged", 0));
        }
    }
}

#[test]
fn tips_are_counted_over_texts() {
    let folder = Folder::new("tips");
    folder.write("message", MESSAGE);
    folder.write("heart", "\u{2764} \u{2764}");
    folder.write("plain", "nothing here");
    let one = folder.run(&["policy", "tips", "heart"]);
    let lines = "1 --add prefer_bare ordinary 2764\n1 --take bare_as_text ordinary 2764\n";
    assert_eq!((one.status, one.text(), one.err.as_str()), (0, lines, ""));
    let many = folder.run(&["policy", "tips", "message", "heart", "plain"]);
    let lines = "2 --add prefer_bare ordinary 2764\n2 --take bare_as_text ordinary 2764\n\
                 1 --take prefer_bare ordinary 0031\n1 --take bare_as_text ordinary 0031\n";
    assert_eq!((many.status, many.text()), (0, lines));
    assert_eq!(
        many.err,
        "tilghorz-host: 3 files: 2 that a flip alters, 1 that none alters\n"
    );
    let json = folder.run_with(&["policy", "tips", "--json"], "\u{2764}".as_bytes());
    let object = "[{\"code_point\":\"2764\",\"context\":\"ordinary\",\"set\":\"prefer_bare\",\"held\":false,\"texts\":1},\
                  {\"code_point\":\"2764\",\"context\":\"ordinary\",\"set\":\"bare_as_text\",\"held\":true,\"texts\":1}]\n";
    assert_eq!((json.status, json.text()), (0, object));
    // A flip that is made alters the text.
    let edits = ["--take", "bare_as_text", "ordinary", "2764"];
    let own = folder.run(&[&["policy", "write"], &edits[..]].concat());
    folder.write("own", &own.out);
    let ran = folder.run(&["format", "--policy", "own", "heart"]);
    assert_eq!(ran.text(), "\u{2764}\u{FE0F} \u{2764}\u{FE0F}");
    let refused = folder.run_with(&["policy", "tips"], DAMAGED);
    assert_eq!((refused.status, refused.text()), (2, ""));
    assert!(refused.err.contains("refused 3"), "{}", refused.err);
    let empty = folder.run(&["policy", "tips", "--json", "plain"]);
    assert_eq!((empty.status, empty.text()), (0, "[]\n"));
}
