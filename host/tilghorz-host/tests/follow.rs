//! `format --follow`: what comes is written as it comes.

mod support;

use std::fs::OpenOptions;
use std::io::{Read, Write};
use std::process::{Child, ChildStderr, ChildStdin, ChildStdout, Command, Stdio};
use std::sync::mpsc::{Receiver, channel};
use std::thread::{sleep, spawn};
use std::time::Duration;

use support::{COMMAND, FORMATTED, Folder, MESSAGE};

/// How long something that must come is waited for.
const LONG: Duration = Duration::from_secs(30);
/// How long something that must not come is waited for.
const SHORT: Duration = Duration::from_millis(300);

/// The command as it follows a text.
struct Following {
    child: Child,
    input: Option<ChildStdin>,
    /// What it writes, byte by byte.
    out: Receiver<u8>,
    err: ChildStderr,
}

impl Following {
    /// Starts it in a folder.
    fn start(folder: &Folder, arguments: &[&str]) -> Self {
        let mut command = Command::new(COMMAND);
        command.args(["format", "--follow"]).args(arguments);
        command
            .current_dir(folder.path(""))
            .stdin(Stdio::piped())
            .stdout(Stdio::piped())
            .stderr(Stdio::piped());
        let mut child = command.spawn().expect("a process");
        Self {
            input: child.stdin.take(),
            out: bytes_of(child.stdout.take().expect("a pipe")),
            err: child.stderr.take().expect("a pipe"),
            child,
        }
    }

    /// Writes to its standard input.
    fn send(&mut self, bytes: &[u8]) {
        let input = self.input.as_mut().expect("a pipe");
        input.write_all(bytes).expect("written");
    }

    /// Waits until it has written just these bytes.
    fn expect(&self, expected: &[u8]) {
        let next = |_| self.out.recv_timeout(LONG).expect("a byte");
        let found: Vec<u8> = (0..expected.len()).map(next).collect();
        assert_eq!(found, expected);
        assert!(self.out.recv_timeout(SHORT).is_err(), "more was written");
    }

    /// Sends it a signal.
    fn signal(&self, name: &str) {
        let number = self.child.id().to_string();
        let kill = Command::new("kill").args([name, &number]).status();
        assert!(kill.expect("kill").success());
    }

    /// Waits for its end, and gives the rest of what it wrote, what it said, and its status.
    fn end(mut self) -> (Vec<u8>, String, i32) {
        let status = self
            .child
            .wait()
            .expect("an end")
            .code()
            .expect("no signal");
        let mut said = String::new();
        self.err.read_to_string(&mut said).expect("a text");
        (self.out.iter().collect(), said, status)
    }
}

/// The bytes of a pipe as they come.
fn bytes_of(mut pipe: ChildStdout) -> Receiver<u8> {
    let (sender, receiver) = channel();
    spawn(move || {
        let mut bytes = [0; 4096];
        while let Ok(length) = pipe.read(&mut bytes)
            && length > 0
        {
            let mut read = bytes[..length].iter();
            if read.any(|byte| sender.send(*byte).is_err()) {
                return;
            }
        }
    });
    receiver
}

#[test]
fn a_slow_pipe_is_written_before_it_ends() {
    let folder = Folder::new("follow-pipe");
    let mut following = Following::start(&folder, &[]);
    following.send(b"1\xEF\xB8");
    following.expect(b"");
    following.send(b"\x8E and ");
    following.expect(b"1 and ");
    following.send("\u{2764}".as_bytes());
    following.expect(b"");
    following.send("\u{FE0F}\u{FE0F}".as_bytes());
    following.expect(b"");
    following.send(b"!");
    following.expect("\u{2764}\u{FE0F}!".as_bytes());
    following.send("\u{2764}".as_bytes());
    following.input = None;
    let heart = "\u{2764}\u{FE0E}".as_bytes().to_vec();
    assert_eq!(following.end(), (heart, String::new(), 0));
}

#[test]
fn a_signal_ends_the_text() {
    let folder = Folder::new("follow-signal");
    for name in ["-INT", "-TERM", "-HUP"] {
        let mut following = Following::start(&folder, &["-"]);
        following.send(MESSAGE.as_bytes());
        following.expect(b"1 ");
        following.signal(name);
        let rest = FORMATTED.as_bytes()[2..].to_vec();
        assert_eq!(following.end(), (rest, String::new(), 0), "{name}");
    }
}

#[test]
fn a_signal_has_the_policy_read_again() {
    let folder = Folder::new("follow-policy");
    folder.write("live.sheet", "\n\n2764\n\n");
    let mut following = Following::start(&folder, &["--policy", "live.sheet"]);
    let heart = "\u{2764}".as_bytes();
    following.send(heart);
    following.expect(b"");
    // The heart is held, and keeps the policy under which it came.
    folder.write("live.sheet", "\n\n\n\n");
    following.signal("-USR1");
    following.expect(b"");
    following.send(heart);
    following.expect("\u{2764}\u{FE0E}".as_bytes());
    following.send(b".");
    following.expect("\u{2764}\u{FE0F}.".as_bytes());
    folder.write("live.sheet", "no sheet");
    following.signal("-USR1");
    following.expect(b"");
    following.send(heart);
    following.input = None;
    let (rest, said, status) = following.end();
    assert_eq!((rest, status), ("\u{2764}\u{FE0F}".as_bytes().to_vec(), 0));
    assert!(said.starts_with("tilghorz-host: live.sheet: refused 11: "));
    assert!(said.ends_with("; the policy stays as it was\n"), "{said}");
}

#[test]
fn a_file_is_followed_while_it_grows() {
    let folder = Folder::new("follow-file");
    folder.write("log", MESSAGE);
    let following = Following::start(&folder, &["log"]);
    following.expect(b"1 ");
    let mut log = OpenOptions::new()
        .append(true)
        .open(folder.path("log"))
        .expect("a file");
    log.write_all("\u{FE0F}\n".as_bytes()).expect("written");
    following.expect("\u{2764}\u{FE0F}\n".as_bytes());
    log.write_all(b"more \xE2").expect("written");
    following.expect(b"more ");
    log.write_all(b"\x9D\xA4").expect("written");
    sleep(SHORT);
    following.signal("-INT");
    let heart = "\u{2764}\u{FE0E}".as_bytes().to_vec();
    assert_eq!(following.end(), (heart, String::new(), 0));
}

#[test]
fn a_file_that_becomes_shorter_ends_it() {
    let folder = Folder::new("follow-shorter");
    folder.write("log", "some text");
    let following = Following::start(&folder, &["log"]);
    following.expect(b"some text");
    folder.write("log", "new");
    let message = "tilghorz-host: log: it is now shorter than what was read\n";
    assert_eq!(following.end(), (Vec::new(), message.to_owned(), 2));
}

#[test]
fn an_ill_formed_place_is_told_and_what_is_written_stays() {
    let folder = Folder::new("follow-ill-formed");
    let message = |what: &str| format!("tilghorz-host: standard input: refused {what}\n");
    let at_7 = message("3: not well-formed UTF-8 at byte 7, in line 2");
    // In one piece, and cut inside the character before the bad byte.
    let thread = b"a\n\xE2\x9D\xA4 b\xE2\x9DA and more";
    let expected = "a\n\u{2764}\u{FE0E} b".as_bytes().to_vec();
    let ran = folder.run_with(&["format", "--follow"], thread);
    assert_eq!(
        (ran.out, ran.err, ran.status),
        (expected.clone(), at_7.clone(), 2)
    );
    let mut following = Following::start(&folder, &[]);
    following.send(&thread[..8]);
    following.expect(&expected);
    following.send(&thread[8..]);
    assert_eq!(following.end(), (Vec::new(), at_7, 2));
    let ran = folder.run_with(&["format", "--follow"], b"ab\xE2\x9D");
    let inside = message("10: the thread ends inside a character");
    assert_eq!((ran.text(), &ran.err, ran.status), ("ab", &inside, 2));
}

#[test]
fn a_policy_holds_for_what_is_followed() {
    let folder = Folder::new("follow-policy");
    let write = [
        "policy",
        "write",
        "--take",
        "bare_as_text",
        "ordinary",
        "2764",
    ];
    folder.write("hearts", folder.run(&write).out);
    let follow = ["format", "--follow", "--policy", "hearts"];
    let ran = folder.run_with(&follow, MESSAGE.as_bytes());
    assert_eq!((ran.text(), ran.status), ("1 \u{2764}\u{FE0F}", 0));
    let ran = folder.run_with(&["format", "--follow", "--policy", "none"], b"");
    assert_eq!(ran.status, 2);
}

#[test]
fn a_long_text_is_followed_as_it_is_formatted() {
    let folder = Folder::new("follow-long");
    let text = format!("{MESSAGE} \u{1F1E6}\u{FE0F}\u{1F1E7} 1\u{20E3}\n").repeat(20_000);
    let whole = folder.run_with(&["format"], text.as_bytes());
    let followed = folder.run_with(&["format", "--follow"], text.as_bytes());
    assert_eq!((followed.status, followed.err.as_str()), (0, ""));
    assert!(followed.out == whole.out);
}

#[test]
fn what_cannot_be_followed_is_told() {
    let folder = Folder::new("follow-wrong");
    folder.write("folder/a", "a");
    let try_help = "\ntry: tilghorz-host help format\n";
    for (arguments, said) in [
        (
            &["--check"][..],
            "format: --follow and --check cannot be used together",
        ),
        (
            &["--in-place", "a"],
            "format: --follow and --in-place cannot be used together",
        ),
        (
            &["--no-sync"],
            "format: --follow and --no-sync cannot be used together",
        ),
        (
            &["--repair"],
            "format: --follow and --repair cannot be used together",
        ),
        (
            &["a", "b"],
            "format: --follow takes standard input or one file",
        ),
    ] {
        let ran = folder.run(&[&["format", "--follow"], arguments].concat());
        let said = format!("tilghorz-host: {said}{try_help}");
        assert_eq!((ran.status, ran.err.as_str()), (2, said.as_str()));
    }
    let ran = folder.run(&["format", "--follow", "folder"]);
    let said = "tilghorz-host: folder: --follow takes one file, and no folder\n";
    assert_eq!((ran.status, ran.err.as_str()), (2, said));
    let ran = folder.run(&["format", "--follow", "none"]);
    assert!(ran.status == 2 && ran.err.starts_with("tilghorz-host: none: "));
}
