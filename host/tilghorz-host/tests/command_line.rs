//! Help, wrong command lines, readers that go away, and bytes of all kinds.

mod support;

use std::process::{Command, Stdio};

use support::{COMMAND, Folder};

#[test]
fn help_and_version_go_to_standard_output() {
    let folder = Folder::new("help");
    for (arguments, beginning) in [
        (&["help"][..], "Puts the emoji selectors"),
        (&["--help"], "Puts the emoji selectors"),
        (&["help", "format"], "usage: tilghorz-host format "),
        (
            &["report", "--json", "--help"],
            "usage: tilghorz-host report ",
        ),
        (&["fix", "-h"], "usage: tilghorz-host fix "),
        (&["help", "show"], "usage: tilghorz-host show "),
        (&["help", "repair"], "usage: tilghorz-host repair "),
        (&["help", "policy"], "usage: tilghorz-host policy "),
        (&["help", "split"], "usage: tilghorz-host split "),
        (
            &["help", "folders"],
            "usage: tilghorz-host format|report|show|page|repair|policy tips ",
        ),
        (
            &["help", "findings"],
            "usage: tilghorz-host help findings\n",
        ),
        (&["help", "help"], "Puts the emoji selectors"),
        (&["help", "version"], "Puts the emoji selectors"),
        (&["version", "--help"], "Puts the emoji selectors"),
        (
            &["help", "completions"],
            "usage: tilghorz-host completions ",
        ),
        (&["man", "--help"], "usage: tilghorz-host man\n"),
        (&["--version"], "tilghorz-host 0."),
    ] {
        let ran = folder.run(arguments);
        assert_eq!((ran.status, ran.err.as_str()), (0, ""));
        assert!(ran.text().starts_with(beginning), "{}", ran.text());
        assert!(ran.text().lines().all(|line| line.len() <= 120));
    }
}

#[test]
fn wrong_command_lines_are_told_on_standard_error() {
    let folder = Folder::new("wrong");
    for (arguments, message) in [
        (&[][..], "no command"),
        (&["fromat"], "fromat: not a command; did you mean format?"),
        (
            &["help", "fromat"],
            "fromat: not a command; did you mean format?",
        ),
        (
            &["help", "finding"],
            "finding: not a command; did you mean findings?",
        ),
        (&["banana"], "banana: not a command\n"),
        (&["help", "format", "fix"], "help takes at most one command"),
        (&["version", "format"], "version takes no argument"),
        (
            &["format", "--chek"],
            "format: --chek: unknown option; did you mean --check?",
        ),
        (
            &["format", "--check=yes"],
            "format: --check: takes no value",
        ),
        (&["format", "--policy"], "format: --policy: no value"),
        (
            &["format", "--policy", "a", "--policy", "b"],
            "format: --policy: given twice",
        ),
        (
            &["format", "--check", "--in-place", "a"],
            "format: --check and --in-place cannot be used together",
        ),
        (
            &["format", "--in-place"],
            "format: --in-place: standard input cannot be changed in place",
        ),
        (
            &["format", "--in-place", "-"],
            "format: --in-place: standard input cannot be changed in place",
        ),
        (
            &["format", "a", "b"],
            "format: several texts can only be given with --in-place, --check or --diff",
        ),
        (
            &["format", "--quiet", "--verbose", "a"],
            "format: --quiet and --verbose cannot be used together",
        ),
        (
            &["format", "--check", "--no-sync", "a"],
            "format: --no-sync can only be used with --in-place",
        ),
        (
            &["fix", "--at", "1", "--new-owner", "a"],
            "fix: --new-owner can only be used with --in-place",
        ),
        (
            &["report", "--jobs", "0", "a"],
            "report: --jobs 0: not a number of at least 1",
        ),
        (
            &["show", "--exclude", "[a", "a"],
            "show: --exclude [a: not a pattern: a bracket is not closed",
        ),
        (
            &["report", "--format", "xml"],
            "report: --format xml: neither lines, short nor json",
        ),
        (
            &["report", "--items", "--format", "short"],
            "report: --items and --format short cannot be used together",
        ),
        (
            &["show", "--context", "-1"],
            "show: --context -1: not a number of lines",
        ),
        (
            &["show", "--all", "--context", "1"],
            "show: --all and --context cannot be used together",
        ),
        (&["fix", "--jobs", "1"], "fix: --jobs: unknown option"),
        (
            &["report", "--repair=yes"],
            "report: --repair: takes no value",
        ),
        (&["repair", "--repair"], "repair: --repair: unknown option"),
        (
            &["repair", "--policy", "a"],
            "repair: --policy: unknown option",
        ),
        (
            &["repair", "a", "b"],
            "repair: several texts can only be given with --in-place, --check or --diff",
        ),
        (
            &["repair", "--in-place"],
            "repair: --in-place: standard input cannot be changed in place",
        ),
        (
            &["policy", "--repair"],
            "policy: unknown policy command --repair",
        ),
        (
            &["policy", "prnt"],
            "policy: unknown policy command prnt; did you mean print?",
        ),
        (&["folders"], "folders: not a command\n"),
        (&["findings"], "findings: not a command\n"),
        (&["format", "-x"], "format: -x: unknown option\n"),
        (&["format", "-cx", "a"], "format: -x: unknown option\n"),
        (&["report", "-c", "a"], "report: --check: unknown option\n"),
        (&["format", "-j"], "format: --jobs: no value\n"),
        (
            &["format", "-ci", "a"],
            "format: --check and --in-place cannot be used together",
        ),
        (
            &["format", "-di", "a"],
            "format: --diff and --in-place cannot be used together",
        ),
        (
            &["format", "-0", "a"],
            "format: --null can only be used with --check",
        ),
        (
            &["format", "-d0", "a"],
            "format: --null can only be used with --check",
        ),
        (
            &["format", "-fd", "a"],
            "format: --follow and --diff cannot be used together",
        ),
        (
            &["show", "--color", "blue"],
            "show: --color blue: neither auto, always nor never",
        ),
        (
            &["report", "--color", "auto"],
            "report: --color: unknown option",
        ),
        (
            &["show", "--stdin-filename", "a", "b"],
            "show: --stdin-filename: standard input is not read",
        ),
        (
            &["format", "-i", "--stdin-filename", "a"],
            "format: --in-place: standard input cannot be changed in place",
        ),
        (
            &["completions"],
            "completions: it takes one shell: bash, zsh or fish",
        ),
        (
            &["completions", "bsh"],
            "completions: bsh: neither bash, zsh nor fish; did you mean bash?",
        ),
        (&["man", "format"], "man: it takes no argument"),
        (
            &["fro\u{1B}mat\u{202E}"],
            "fro<001B>mat<202E>: not a command",
        ),
        (&["split"], "split: --parts N is missing"),
        (
            &["split", "--parts", "0", "a", "b"],
            "split: --parts 0: not a number of at least 1",
        ),
        (
            &["split", "--parts", "2", "a"],
            "split: it takes a folder that it makes, and a file",
        ),
        (&["split", "--jobs", "2"], "split: --jobs: unknown option"),
        (
            &["format", "--parts", "8", "a"],
            "format: --parts takes standard input or one file, and no number",
        ),
        (
            &["format", "--parts=8", "a"],
            "format: --parts: takes no value",
        ),
        (
            &["format", "--parts", "--follow"],
            "format: --parts and --follow cannot be used together",
        ),
        (
            &["format", "--parts", "--diff"],
            "format: --parts and --diff cannot be used together",
        ),
        (
            &["format", "--parts", "--repair"],
            "format: --parts and --repair cannot be used together",
        ),
        (
            &["format", "--parts", "--in-place"],
            "format: --in-place: standard input cannot be changed in place",
        ),
        (&["report", "--parts"], "report: --parts: unknown option"),
        (
            &["report", "--offset", "1"],
            "report: --offset: unknown option",
        ),
        (
            &["report", "--at", "x"],
            "report: --at x: neither an offset in bytes nor LINE:COLUMN",
        ),
        (
            &["report", "--from", "0:1"],
            "report: --from 0:1: lines and columns begin at 1",
        ),
        (
            &["report", "--at", "1", "--to", "2"],
            "report: --at and --from or --to cannot be used together",
        ),
        (
            &["report", "--items", "--at", "1"],
            "report: --items and --at cannot be used together",
        ),
        (&["fix"], "fix: --at PLACE is missing"),
        (
            &["fix", "--at", "x"],
            "fix: --at x: neither an offset in bytes nor LINE:COLUMN",
        ),
        (
            &["fix", "--at", "99999999999999999999"],
            "fix: --at 99999999999999999999: neither an offset",
        ),
        (
            &["fix", "--at", "1", "--decide", "text,blue"],
            "fix: --decide text,blue: \"blue\" is neither text, emoji nor default",
        ),
        (
            &["fix", "--decide", "text", "--at", "1", "--at", "2"],
            "fix: --decide: no --at before it",
        ),
        (
            &["fix", "--at", "1", "a", "b"],
            "fix: it takes one text only",
        ),
        (&["policy"], "policy: the policy command is missing"),
        (&["policy", "show"], "policy: unknown policy command show\n"),
        (
            &["policy", "tips", "--check"],
            "policy: --check: unknown option",
        ),
        (
            &["policy", "print", "a", "b"],
            "policy: print: too many files",
        ),
        (&["policy", "compare"], "policy: compare: a file is missing"),
        (
            &["policy", "print", "--add", "prefer_bare", "ordinary", "31"],
            "policy: --add: unknown option",
        ),
        (
            &["policy", "write", "--members"],
            "policy: --members: unknown option",
        ),
        (
            &["policy", "write", "--add", "all", "ordinary", "31"],
            "the set is neither",
        ),
        (
            &["policy", "write", "--add", "prefer_bare", "all", "31"],
            "the context is neither",
        ),
        (
            &["policy", "write", "--add", "prefer_bare", "ordinary", "x"],
            "not a code point",
        ),
        (
            &["policy", "write", "--add", "prefer_bare", "ordinary", "61"],
            "U+0061 has no variation sequence",
        ),
        (&["format", "missing"], "missing: No such file"),
        (&["format", "--", "--check"], "--check: No such file"),
    ] {
        let ran = folder.run(arguments);
        assert_eq!((ran.status, ran.text()), (2, ""), "{arguments:?}");
        let beginning = format!("tilghorz-host: {message}");
        assert!(
            ran.err.starts_with(&beginning) || ran.err.contains(message),
            "{}",
            ran.err
        );
    }
}

/// A reader that goes away is no reason for a message.
#[test]
fn a_closed_pipe_is_quiet() {
    let folder = Folder::new("pipe");
    folder.write("many", "\u{A9}\n".repeat(100_000));
    for command in ["format", "report", "show", "repair"] {
        let mut command = Command::new(COMMAND)
            .args([command, "many"])
            .current_dir(folder.path(""))
            .stdin(Stdio::null())
            .stdout(Stdio::piped())
            .stderr(Stdio::piped())
            .spawn()
            .expect("a process");
        drop(command.stdout.take());
        let output = command.wait_with_output().expect("an end");
        assert_eq!((output.status.code(), output.stderr.len()), (Some(2), 0));
    }
}

/// Bytes of all kinds, in pieces that mean something here.
fn drawn(seed: &mut u64) -> Vec<u8> {
    const PIECES: [&[u8]; 12] = [
        b"a",
        b"\n",
        b"1",
        b"\t\x1B[2J",
        b"\xEF\xB8\x8E",
        b"\xEF\xB8\x8F",
        b"\xE2\x80\x8D",
        b"\xE2\x83\xA3",
        b"\xE2\x9D\xA4",
        b"\xF0\x9F\x8F\xBB",
        b"\xF3\xA0\x81\xA1",
        b"\xF0\x9F\x87\xA6",
    ];
    let mut next = |below: usize| {
        *seed = seed
            .wrapping_mul(6_364_136_223_846_793_005)
            .wrapping_add(1_442_695_040_888_963_407);
        (*seed >> 33) as usize % below
    };
    let mut bytes: Vec<u8> = (0..next(30))
        .flat_map(|_| PIECES[next(PIECES.len())].to_vec())
        .collect();
    if next(4) == 0 && !bytes.is_empty() {
        let at = next(bytes.len());
        bytes[at] = next(256) as u8;
    }
    bytes
}

#[test]
fn no_input_ends_in_a_panic() {
    let folder = Folder::new("panic");
    let mut seed = 1;
    for number in 0..60 {
        let bytes = drawn(&mut seed);
        let at = number.to_string();
        for arguments in [
            &["format"][..],
            &["format", "--check"],
            &["report", "--json", "--items"],
            &["show"],
            &["show", "--all"],
            &["show", "--context", "1"],
            &["page", "--output", "-", "--most", "3"],
            &["fix", "--at", &at, "--decide", "text"],
        ] {
            let ran = folder.run_with(arguments, &bytes);
            assert!((0..=2).contains(&ran.status), "{arguments:?} {bytes:X?}");
            assert!(
                !ran.err.contains("panicked"),
                "{arguments:?} {bytes:X?} {}",
                ran.err
            );
            assert_eq!(
                ran.status == 2,
                !ran.err.is_empty(),
                "{arguments:?} {bytes:X?}"
            );
        }
        // With the option no text of these is refused, and a message says only that bad places were replaced.
        let is_damaged = std::str::from_utf8(&bytes).is_err();
        for arguments in [
            &["repair"][..],
            &["format", "--repair"],
            &["report", "--json", "--repair"],
            &["show", "--repair"],
            &["page", "--output", "-", "--repair"],
        ] {
            let ran = folder.run_with(arguments, &bytes);
            assert_eq!(ran.status, 0, "{arguments:?} {bytes:X?} {}", ran.err);
            assert_eq!(is_damaged, ran.err.contains(" replaced by U+FFFD, "));
            assert_eq!(is_damaged, !ran.err.is_empty());
            assert!(std::str::from_utf8(&ran.out).is_ok());
        }
    }
}
