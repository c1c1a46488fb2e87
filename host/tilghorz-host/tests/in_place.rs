//! Files changed in place: what is kept of them, and what a signal leaves.

mod support;

use std::fs::{self, Permissions};
use std::io::Read;
use std::os::unix::fs::{MetadataExt, PermissionsExt, chown};
use std::os::unix::process::ExitStatusExt;
use std::process::{Child, Command, Stdio};
use std::thread::sleep;
use std::time::Duration;

use support::{COMMAND, FORMATTED, Folder, MESSAGE, NOBODY, is_root};

/// Runs lines of Python on a file, which has calls for extended attributes. `None` where the file system has none.
fn python(folder: &Folder, lines: &str) -> Option<String> {
    let mut python = Command::new("python3");
    python.args(["-c", &format!("import os\n{lines}")]);
    let output = python
        .current_dir(folder.path(""))
        .output()
        .expect("python3");
    let said = String::from_utf8_lossy(&output.stderr);
    if said.contains("Operation not supported") {
        return None;
    }
    assert!(output.status.success(), "{said}");
    Some(String::from_utf8(output.stdout).expect("a text"))
}

const ATTRIBUTES: &str = "print({n: os.getxattr('a', n) for n in sorted(os.listxattr('a'))})";

#[test]
fn extended_attributes_are_kept() {
    let folder = Folder::new("attributes");
    folder.write("a", MESSAGE);
    let set = format!(
        "os.setxattr('a', 'user.source', b'room 4')
os.setxattr('a', 'user.empty', b'')
os.setxattr('a', 'user.long', bytes(range(256)))
{ATTRIBUTES}"
    );
    let Some(before) = python(&folder, &set) else {
        return;
    };
    assert!(before.contains("user.long"), "{before}");
    let ran = folder.run(&["format", "--in-place", "a"]);
    assert_eq!((ran.status, ran.err.as_str()), (0, ""));
    assert_eq!(folder.read("a"), FORMATTED.as_bytes());
    assert_eq!(python(&folder, ATTRIBUTES), Some(before));
    folder.write("a", MESSAGE);
    let ran = folder.run(&["fix", "--at", "0", "--in-place", "a"]);
    assert_eq!((ran.status, ran.err.as_str()), (0, ""));
    assert!(python(&folder, ATTRIBUTES).is_some_and(|found| found.contains("room 4")));
}

/// The access control list that a folder gives to new files is not that of a file which has none.
#[test]
fn access_control_lists_are_kept() {
    let folder = Folder::new("lists");
    for name in ["a", "b"] {
        folder.write(name, MESSAGE);
        fs::set_permissions(folder.path(name), Permissions::from_mode(0o640)).expect("set");
    }
    // The owner reads and writes, the user 12345 reads, the mask allows it, nobody else does anything.
    let list = "def entry(tag, allowed, who=0xFFFFFFFF): return bytes([tag, 0, allowed, 0]) + who.to_bytes(4, 'little')
acl = b'\\2\\0\\0\\0' + entry(1, 6) + entry(2, 4, 12345) + entry(4, 0) + entry(16, 4) + entry(32, 0)
";
    let set = format!(
        "{list}os.setxattr('a', 'system.posix_acl_access', acl)
os.setxattr('.', 'system.posix_acl_default', acl)
{ATTRIBUTES}"
    );
    let Some(before) = python(&folder, &set) else {
        return;
    };
    let ran = folder.run(&["format", "--in-place", "a", "b"]);
    assert_eq!((ran.status, ran.text()), (0, ""), "{}", ran.err);
    assert_eq!(python(&folder, ATTRIBUTES), Some(before));
    let none = python(&folder, "print(os.listxattr('b'))");
    assert_eq!(none.as_deref(), Some("[]\n"));
    for name in ["a", "b"] {
        let mode = fs::metadata(folder.path(name)).expect("a file").mode();
        assert_eq!(mode & 0o777, 0o640);
    }
}

/// A file of another in a folder in which everybody may write.
#[test]
fn another_owner_is_accepted_only_if_it_is_asked_for() {
    let folder = Folder::new("owner");
    folder.write("t/a", MESSAGE);
    if !is_root() || folder.as_nobody().is_none() {
        return;
    }
    let owned = |mode| {
        folder.write("t/a", MESSAGE);
        chown(folder.path("t/a"), Some(0), Some(0)).expect("given");
        fs::set_permissions(folder.path("t/a"), Permissions::from_mode(mode)).expect("set");
    };
    let run = |options: &[&str]| {
        let mut command = folder.as_nobody().expect("a command");
        owned(0o6646);
        command.args([&["format", "--in-place"], options, &["t/a"]].concat());
        folder.run_command(command, b"")
    };
    let ran = run(&[]);
    assert_eq!((ran.status, ran.text()), (2, ""));
    assert!(
        ran.err.starts_with(
            "tilghorz-host: t/a: its owner and group could not be kept, and it was left as it was (--new-owner"
        ),
        "{}",
        ran.err
    );
    assert_eq!(folder.read("t/a"), MESSAGE.as_bytes());
    let ran = run(&["--new-owner"]);
    assert_eq!((ran.status, ran.err.as_str()), (0, ""));
    assert_eq!(folder.read("t/a"), FORMATTED.as_bytes());
    let found = fs::metadata(folder.path("t/a")).expect("a file");
    assert_eq!((found.uid(), found.mode() & 0o7777), (NOBODY, 0o646));
    assert_eq!(folder.paths(), ["t/a"]);
}

/// No file stays open until its batch is renamed, and none after that: 600 files, of which 512 are a batch.
#[test]
fn few_open_files_are_enough_for_many_files() {
    let folder = Folder::new("few_open");
    for number in 0..600 {
        folder.write(&format!("t/{number:03}"), MESSAGE);
    }
    let mut shell = Command::new("sh");
    let line = "ulimit -n 24; exec \"$0\" format --in-place --jobs 2 t";
    shell.args(["-c", line, COMMAND]);
    let ran = folder.run_command(shell, b"");
    let expected = "tilghorz-host: 600 files: 600 changed, 0 unchanged\n";
    assert_eq!((ran.status, ran.err.as_str()), (0, expected));
    for number in 0..600 {
        assert_eq!(folder.read(&format!("t/{number:03}")), FORMATTED.as_bytes());
    }
    assert_eq!(folder.paths().len(), 600);
}

/// Starts the command on many files, and sends it a signal once a file stands beside another. What it said, and the
/// number of the signal that ended it; none if it was done before.
fn interrupted(folder: &Folder, signal: &str, before: &str) -> (String, Option<i32>) {
    for number in 0..1500 {
        folder.write(&format!("t/{number:04}"), MESSAGE.repeat(500));
    }
    let mut shell = Command::new("sh");
    shell.args([
        "-c",
        &format!("{before} exec \"$0\" format --in-place t"),
        COMMAND,
    ]);
    shell.current_dir(folder.path("")).stdin(Stdio::null());
    let mut child = shell.stderr(Stdio::piped()).spawn().expect("a process");
    let is_beside = |name: &String| name.contains(".tilghorz-");
    while !folder.paths().iter().any(is_beside) && child.try_wait().expect("a process").is_none() {
        sleep(Duration::from_millis(1));
    }
    send(signal, &child);
    let mut said = String::new();
    let mut stderr = child.stderr.take().expect("a pipe");
    stderr.read_to_string(&mut said).expect("a text");
    (said, child.wait().expect("an end").signal())
}

/// Sends a signal. One that has ended gets none.
fn send(signal: &str, child: &Child) {
    let mut kill = Command::new("sh");
    kill.args(["-c", &format!("kill {signal} {}", child.id())]);
    kill.stderr(Stdio::null()).status().expect("a shell");
}

#[test]
fn a_signal_leaves_no_file_beside_another() {
    let folder = Folder::new("signals");
    for (signal, name, number) in [
        ("-INT", "SIGINT", 2),
        ("-TERM", "SIGTERM", 15),
        ("-HUP", "SIGHUP", 1),
    ] {
        let mut ended = None;
        // It may be done before the signal comes.
        for _ in 0..5 {
            let (said, by) = interrupted(&folder, signal, "");
            if by.is_none() {
                continue;
            }
            assert_eq!(by, Some(number));
            assert_eq!(folder.paths().len(), 1500);
            let formatted = FORMATTED.repeat(500);
            let changed = (0..1500)
                .filter(|number| folder.read(&format!("t/{number:04}")) == formatted.as_bytes())
                .count();
            let expected =
                format!(" of 1500 files: {changed} changed, the others are as they were\n");
            assert!(said.ends_with(&expected), "{changed} {said}");
            assert!(said.starts_with(&format!("tilghorz-host: ended by {name} after ")));
            ended = by;
            break;
        }
        assert_eq!(ended, Some(number));
    }
}

#[test]
fn a_signal_that_is_ignored_stays_so() {
    let folder = Folder::new("ignored_signal");
    let (said, by) = interrupted(&folder, "-HUP", "trap '' HUP;");
    assert_eq!(by, None);
    assert_eq!(
        said,
        "tilghorz-host: 1500 files: 1500 changed, 0 unchanged\n"
    );
}
