//! The options that people expect: short ones, differences, colours, the name of standard input, completions, the manual page.

mod support;

use std::ffi::OsStr;
use std::fs;
use std::os::unix::ffi::OsStrExt;
use std::process::Command;

use support::{COMMAND, FORMATTED, Folder, MESSAGE};

#[test]
fn short_options_stand_for_long_ones() {
    let folder = Folder::new("short_options");
    folder.write("a", MESSAGE);
    folder.write("b", FORMATTED);
    for (short, long) in [
        (
            &["format", "-c", "a", "b"][..],
            &["format", "--check", "a", "b"][..],
        ),
        (
            &["format", "-cq", "a", "b"],
            &["format", "--check", "--quiet", "a", "b"],
        ),
        (
            &["format", "-cj1", "a", "b"],
            &["format", "--check", "--jobs=1", "a", "b"],
        ),
        (
            &["format", "-cj", "1", "a"],
            &["format", "--check", "--jobs", "1", "a"],
        ),
        (&["format", "-d", "a"], &["format", "--diff", "a"]),
        (&["show", "-a", "b"], &["show", "--all", "b"]),
        (&["show", "-C1", "a"], &["show", "--context", "1", "a"]),
        (&["report", "-r", "a"], &["report", "--repair", "a"]),
        (
            &["format", "-p", "missing", "a"],
            &["format", "--policy", "missing", "a"],
        ),
        (
            &["repair", "-cv", "."],
            &["repair", "--check", "--verbose", "."],
        ),
    ] {
        let (short, long) = (folder.run(short), folder.run(long));
        assert_eq!(
            (short.status, short.out, short.err),
            (long.status, long.out, long.err)
        );
    }
    let ran = folder.run(&["format", "-i", "a"]);
    assert_eq!(
        (ran.status, folder.read("a")),
        (0, FORMATTED.as_bytes().to_vec())
    );
    // After -- a word is a name.
    folder.write("-c", MESSAGE);
    let ran = folder.run(&["format", "--", "-c"]);
    assert_eq!((ran.status, ran.text()), (0, FORMATTED));
}

#[test]
fn check_ends_names_by_a_byte_00_if_it_is_asked_to() {
    let folder = Folder::new("null");
    folder.write("a\nb", MESSAGE);
    folder.write("c", MESSAGE);
    for option in ["-0", "--null"] {
        let ran = folder.run(&["format", "--check", "--quiet", option, "a\nb", "c"]);
        assert_eq!((ran.status, ran.text()), (1, "a\nb\0c\0"));
    }
}

#[test]
fn diff_shows_what_would_change() {
    let folder = Folder::new("diff");
    folder.write("message", format!("Hi\r\n{MESSAGE}\r\n"));
    folder.write("clean", "plain\n");
    folder.write("damaged", b"\xE2\x9D\n");
    let message = format!(
        "--- message\n+++ message\n@@ -1,2 +1,2 @@\n Hi\n-1<FE0E> {heart}\n+1 {heart}<FE0E>\n",
        heart = "\u{2764}"
    );
    let ran = folder.run(&["format", "--diff", "message", "clean"]);
    assert_eq!((ran.status, ran.text()), (1, &*message));
    assert_eq!(
        ran.err,
        "tilghorz-host: 2 files: 1 would change, 1 would not\n"
    );
    assert_eq!(
        folder.read("message"),
        format!("Hi\r\n{MESSAGE}\r\n").as_bytes()
    );
    let ran = folder.run(&["format", "--diff", "clean"]);
    assert_eq!((ran.status, ran.text()), (0, ""));
    // It can be given with --check.
    let ran = folder.run(&["format", "-cd", "message"]);
    assert_eq!((ran.status, ran.text()), (1, &*message));
    let ran = folder.run(&["format", "--diff", "damaged"]);
    assert_eq!((ran.status, ran.text()), (2, ""));
    for command in [
        &["repair", "--diff", "damaged"][..],
        &["format", "-dr", "damaged"],
    ] {
        let ran = folder.run(command);
        let expected = "--- damaged\n+++ damaged\n@@ -1 +1 @@\n-<E2><9D>\n+\u{FFFD}\n";
        assert_eq!((ran.status, ran.text()), (1, expected));
        assert!(
            ran.err.contains("1 bad place would be replaced"),
            "{}",
            ran.err
        );
    }
}

#[test]
fn colours_are_those_that_are_asked_for() {
    let folder = Folder::new("colours");
    folder.write("a", MESSAGE);
    let is_coloured = |arguments: &[&str], variables: &[(&str, &str)]| {
        let mut command = Command::new(COMMAND);
        for name in ["NO_COLOR", "CLICOLOR_FORCE"] {
            command.env_remove(name);
        }
        command
            .args(arguments)
            .arg("a")
            .envs(variables.iter().copied());
        folder.run_command(command, b"").text().contains('\x1B')
    };
    for command in [&["show"][..], &["format", "--diff"]] {
        let with = |more: &[&str], variables: &[(&str, &str)]| {
            is_coloured(&[command, more].concat(), variables)
        };
        assert!(!with(&[], &[]));
        assert!(!with(&["--color", "auto"], &[]));
        assert!(with(&["--color=always"], &[]));
        assert!(!with(&["--color=never"], &[("CLICOLOR_FORCE", "1")]));
        assert!(with(&[], &[("CLICOLOR_FORCE", "1")]));
        assert!(!with(&[], &[("CLICOLOR_FORCE", "0")]));
        assert!(!with(&[], &[("CLICOLOR_FORCE", "1"), ("NO_COLOR", "1")]));
        assert!(with(&[], &[("CLICOLOR_FORCE", "1"), ("NO_COLOR", "")]));
        assert!(with(&["--color", "always"], &[("NO_COLOR", "1")]));
    }
}

#[test]
fn standard_input_can_have_a_name() {
    let folder = Folder::new("stdin_filename");
    for (arguments, status, out) in [
        (&["format", "--check"][..], 1, "a.md\n"),
        (&["report", "--format", "short"], 0, "a.md:1:1: "),
        (&["report", "--json", "-"], 0, "{\"file\":\"a.md\","),
        (&["format", "--diff"], 1, "--- a.md\n+++ a.md\n"),
    ] {
        let arguments = [arguments, &["--stdin-filename", "a.md"]].concat();
        let ran = folder.run_with(&arguments, MESSAGE.as_bytes());
        assert_eq!(ran.status, status);
        assert!(ran.text().starts_with(out), "{}", ran.text());
        let ran = folder.run_with(&arguments, b"\xFF");
        assert!(ran.err.contains("a.md: refused 3: "), "{}", ran.err);
    }
}

#[test]
fn names_in_messages_are_harmless() {
    let folder = Folder::new("harmless");
    for (name, shown) in [
        ("a\x1B[2J", "\"a\\u{1b}[2J\""),
        ("txt.\u{202E}exe", "\"txt.\\u{202e}exe\""),
        ("a\nb", "\"a\\nb\""),
    ] {
        let ran = folder.run(&["report", name]);
        let message = format!("tilghorz-host: {shown}: No such file or directory (os error 2)\n");
        assert_eq!((ran.status, ran.err), (2, message));
    }
    let name = OsStr::from_bytes(b"a\xFF");
    fs::write(folder.path("").join(name), b"\xFF").expect("written");
    let ran = folder.run(&[OsStr::new("format"), name]);
    assert!(
        ran.err
            .starts_with("tilghorz-host: \"a\\xFF\": refused 3: "),
        "{}",
        ran.err
    );
}

/// What bash completes after some words, the last of which is begun.
fn completed(folder: &Folder, words: &[&str]) -> String {
    let script =
        "source ./completions; COMP_WORDS=(tilghorz-host \"$@\"); COMP_CWORD=$#; _tilghorz_host
                  printf '%s\\n' \"${COMPREPLY[@]}\"";
    let mut bash = Command::new("bash");
    bash.args(["-c", script, "bash"]).args(words);
    let ran = folder.run_command(bash, b"");
    assert_eq!((ran.status, ran.err.as_str()), (0, ""));
    ran.text().lines().collect::<Vec<_>>().join(" ")
}

#[test]
fn bash_completes_commands_options_values_and_files() {
    let folder = Folder::new("completions");
    let ran = folder.run(&["completions", "bash"]);
    folder.write("completions", &ran.out);
    folder.write("a file", "");
    for (words, expected) in [
        (&["f"][..], "format fix"),
        (&["format", "--ch"], "--check"),
        (&["format", "-"], "-c --check"),
        (&["show", "--color", "a"], "auto always"),
        (&["report", "--format", "s"], "short"),
        (&["format", "--check", "a"], "a file"),
        (&["format", "--policy", "a"], "a file"),
        (&["policy", "t"], "tips"),
        (&["help", "f"], "format fix findings folders"),
        (&["completions", ""], "bash zsh fish"),
    ] {
        let found = completed(&folder, words);
        assert!(found.starts_with(expected), "{words:?}: {found}");
    }
}

#[test]
fn the_other_shells_and_the_manual_page_are_written() {
    let folder = Folder::new("man");
    let zsh = folder.run(&["completions", "zsh"]);
    assert!(zsh.text().starts_with("#compdef tilghorz-host\n"));
    let fish = folder.run(&["completions", "fish"]);
    assert!(
        fish.text()
            .lines()
            .skip(1)
            .all(|line| line.starts_with("complete -c tilghorz-host "))
    );
    let man = folder.run(&["man"]);
    assert_eq!(man.status, 0);
    assert!(man.text().starts_with(".TH TILGHORZ-HOST 1 "));
    for section in [
        "NAME",
        "DESCRIPTION",
        "FORMAT",
        "POLICY",
        "FINDINGS",
        "FOLDERS",
    ] {
        assert!(
            man.text().contains(&format!("\n.SH {section}\n")),
            "{section}"
        );
    }
}
