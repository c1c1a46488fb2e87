//! Files and folders: many, long, read-only, linked, and never half written.

mod support;

use std::ffi::OsStr;
use std::fs::{self, Permissions};
use std::os::unix::ffi::OsStrExt;
use std::os::unix::fs::{MetadataExt, PermissionsExt, symlink};
use std::process::{Command, Stdio};
use std::thread::sleep;
use std::time::Duration;

use support::{COMMAND, FORMATTED, Folder, MESSAGE};

#[test]
fn files_are_changed_in_place_and_keep_their_permissions() {
    let folder = Folder::new("in_place");
    folder.write("message", MESSAGE);
    folder.write("clean", FORMATTED);
    fs::set_permissions(folder.path("message"), Permissions::from_mode(0o640)).expect("set");
    let before = ["message", "clean"].map(|name| fs::metadata(folder.path(name)).expect("a file"));
    let ran = folder.run(&["format", "--in-place", "message", "clean"]);
    assert_eq!((ran.status, ran.text()), (0, ""));
    assert_eq!(ran.err, "tilghorz-host: 2 files: 1 changed, 1 unchanged\n");
    let after = ["message", "clean"].map(|name| fs::metadata(folder.path(name)).expect("a file"));
    assert_eq!(folder.read("message"), FORMATTED.as_bytes());
    assert_eq!(after[0].mode(), before[0].mode());
    assert_eq!(
        (after[0].uid(), after[0].gid()),
        (before[0].uid(), before[0].gid())
    );
    // A file that needs no change is not touched.
    assert_eq!(
        (after[1].ino(), after[1].mtime_nsec()),
        (before[1].ino(), before[1].mtime_nsec())
    );
    assert_eq!(folder.names(), ["clean", "message"]);
}

#[test]
fn a_refused_file_is_named_and_the_others_go_on() {
    let folder = Folder::new("go_on");
    folder.write("texts/a", MESSAGE);
    folder.write("texts/b", b"\xFF");
    folder.write("texts/c/d", MESSAGE);
    let ran = folder.run(&["format", "--in-place", "texts", "missing"]);
    assert_eq!((ran.status, ran.text()), (2, ""));
    let expected = "tilghorz-host: texts/b: refused 3: not well-formed UTF-8 at byte 0, in line 1
tilghorz-host: missing: No such file or directory (os error 2)
tilghorz-host: 4 files: 2 changed, 0 unchanged, 1 refused, 1 failed
";
    assert_eq!(ran.err, expected);
    assert_eq!(folder.read("texts/a"), FORMATTED.as_bytes());
    assert_eq!(folder.read("texts/b"), b"\xFF");
    assert_eq!(folder.read("texts/c/d"), FORMATTED.as_bytes());
}

#[test]
fn links_and_hidden_files_in_a_folder_are_passed_over() {
    let folder = Folder::new("passed_over");
    folder.write("elsewhere", MESSAGE);
    folder.write("texts/.hidden", MESSAGE);
    folder.write("texts/.git/HEAD", MESSAGE);
    symlink("../elsewhere", folder.path("texts/link")).expect("a link");
    symlink("..", folder.path("texts/loop")).expect("a link");
    let ran = folder.run(&["format", "--in-place", "texts"]);
    assert_eq!(ran.status, 0);
    assert_eq!(
        ran.err,
        "tilghorz-host: 0 files: 0 changed, 0 unchanged; passed over: 2 hidden, 2 symbolic links\n"
    );
    assert_eq!(folder.read("elsewhere"), MESSAGE.as_bytes());
    assert_eq!(folder.read("texts/.hidden"), MESSAGE.as_bytes());
}

#[test]
fn a_link_that_is_named_stays_a_link() {
    let folder = Folder::new("link");
    folder.write("there/message", MESSAGE);
    symlink("there/message", folder.path("link")).expect("a link");
    let ran = folder.run(&["format", "--in-place", "link"]);
    assert_eq!((ran.status, ran.err.as_str()), (0, ""));
    assert!(
        fs::symlink_metadata(folder.path("link"))
            .expect("a link")
            .is_symlink()
    );
    assert_eq!(folder.read("there/message"), FORMATTED.as_bytes());
    assert_eq!(folder.names(), ["link", "there"]);
}

#[test]
fn a_read_only_file_is_left_alone() {
    let folder = Folder::new("read_only");
    folder.write("sealed", MESSAGE);
    fs::set_permissions(folder.path("sealed"), Permissions::from_mode(0o444)).expect("set");
    let ran = folder.run(&["format", "--in-place", "sealed"]);
    assert_eq!(ran.status, 2);
    assert_eq!(
        ran.err,
        "tilghorz-host: sealed: it is read-only, and was left as it was\n"
    );
    let ran = folder.run(&["fix", "--at", "0", "--in-place", "sealed"]);
    assert_eq!(ran.status, 2);
    assert_eq!(folder.read("sealed"), MESSAGE.as_bytes());
    assert_eq!(folder.names(), ["sealed"]);
}

/// A limit on the length of files stands for a disk that is full.
#[test]
fn a_file_that_cannot_be_written_stays_whole() {
    let folder = Folder::new("no_room");
    let text = MESSAGE.repeat(10_000);
    folder.write("message", &text);
    let mut shell = Command::new("sh");
    shell.args([
        "-c",
        "trap '' XFSZ; ulimit -f 1; exec \"$0\" \"$@\"",
        COMMAND,
    ]);
    shell.args(["format", "--in-place", "message"]);
    let output = shell
        .current_dir(folder.path(""))
        .output()
        .expect("a shell");
    assert_eq!(output.status.code(), Some(2));
    let message = String::from_utf8_lossy(&output.stderr);
    assert!(
        message.starts_with("tilghorz-host: message: File too large"),
        "{message}"
    );
    assert_eq!(folder.read("message"), text.as_bytes());
    assert_eq!(folder.names(), ["message"]);
}

#[test]
fn a_command_that_is_killed_leaves_no_file_half_written() {
    let folder = Folder::new("killed");
    let (text, formatted) = (MESSAGE.repeat(5_000), FORMATTED.repeat(5_000));
    let names: Vec<String> = (0..500).map(|number| format!("texts/{number}")).collect();
    names.iter().for_each(|name| folder.write(name, &text));
    let mut command = Command::new(COMMAND);
    command
        .args(["format", "--in-place", "texts"])
        .current_dir(folder.path(""));
    let mut child = command.stderr(Stdio::null()).spawn().expect("a process");
    // It is killed once it has begun, wherever it is then.
    while child.try_wait().expect("a process").is_none()
        && folder.read(&names[0]) == text.as_bytes()
    {
        sleep(Duration::from_millis(1));
    }
    child.kill().expect("killed");
    child.wait().expect("an end");
    let changed = names.iter().filter(|name| {
        let found = folder.read(name);
        assert!(
            found == text.as_bytes() || found == formatted.as_bytes(),
            "{name}"
        );
        found == formatted.as_bytes()
    });
    assert!(changed.count() > 0);
}

#[test]
fn names_may_be_any_bytes() {
    let folder = Folder::new("names");
    let name = OsStr::from_bytes(b"bell\x07\xFF");
    fs::write(folder.path("").join(name), MESSAGE).expect("written");
    let check = [OsStr::new("format"), OsStr::new("--check"), name];
    let ran = folder.run(&check);
    assert_eq!(
        (ran.status, ran.out.as_slice()),
        (1, &b"bell\x07\xFF\n"[..])
    );
    fs::write(folder.path("").join(name), b"\xFF").expect("written");
    let ran = folder.run(&check);
    assert!(
        ran.err
            .starts_with("tilghorz-host: \"bell\\u{7}\\xFF\": refused 3"),
        "{}",
        ran.err
    );
}

#[test]
fn several_files_are_reported_under_their_names() {
    let folder = Folder::new("several");
    folder.write("a", MESSAGE);
    folder.write("b", "");
    let ran = folder.run(&["report", "a", "b"]);
    let expected = "==> a <==
0 4 0 0 0 0 0 0 1 0
5 8 0 0 0 0 0 0 0 1
total 0 0 0 0 0 0 1 1
==> b <==
total 0 0 0 0 0 0 0 0
";
    assert_eq!((ran.status, ran.text()), (0, expected));
    assert_eq!(
        ran.err,
        "tilghorz-host: 2 files: 1 with findings, 1 without\n"
    );
    let ran = folder.run(&["show", "a", "b"]);
    assert_eq!(
        (ran.status, ran.text().lines().next()),
        (0, Some("==> a <=="))
    );
}

#[test]
fn a_folder_of_ten_thousand_files_is_checked_and_changed() {
    let folder = Folder::new("ten_thousand");
    for number in 0..10_000 {
        let text = if number % 100 == 7 {
            MESSAGE
        } else {
            FORMATTED
        };
        folder.write(&format!("texts/{}/{number}", number % 10), text);
    }
    let ran = folder.run(&["format", "--check", "texts"]);
    assert_eq!((ran.status, ran.text().lines().count()), (1, 100));
    assert_eq!(
        ran.err,
        "tilghorz-host: 10000 files: 100 would change, 9900 would not\n"
    );
    let ran = folder.run(&["format", "--in-place", "texts"]);
    assert_eq!(
        ran.err,
        "tilghorz-host: 10000 files: 100 changed, 9900 unchanged\n"
    );
    let ran = folder.run(&["format", "--check", "texts"]);
    assert_eq!((ran.status, ran.text()), (0, ""));
}

#[test]
fn the_longest_text_passes_and_one_byte_more_does_not() {
    let folder = Folder::new("longest");
    let mut text = vec![b'a'; 16_777_216 - MESSAGE.len()];
    text.extend(MESSAGE.as_bytes());
    folder.write("longest", &text);
    let ran = folder.run(&["format", "--in-place", "longest"]);
    assert_eq!((ran.status, ran.err.as_str()), (0, ""));
    assert!(
        folder
            .read("longest")
            .ends_with(&[b"a", FORMATTED.as_bytes()].concat())
    );
    text.push(b'a');
    folder.write("too_long", &text);
    let refused = "refused 1: the text is longer than 16,777,216 bytes\n";
    for command in ["format", "report", "show"] {
        let ran = folder.run(&[command, "too_long"]);
        assert_eq!(
            (ran.status, ran.err),
            (2, format!("tilghorz-host: too_long: {refused}"))
        );
    }
}
