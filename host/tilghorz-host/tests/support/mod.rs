//! Runs the command in a folder of its own.

#![allow(dead_code, reason = "each test file uses a part")]

pub mod json;

use std::ffi::OsStr;
use std::fs;
use std::io::Write;
use std::os::unix::fs::{MetadataExt, lchown};
use std::os::unix::process::CommandExt;
use std::path::{Path, PathBuf};
use std::process::{Command, Stdio};

/// The command.
pub const COMMAND: &str = env!("CARGO_BIN_EXE_tilghorz-host");

/// Document 01's example: 31 EF B8 8E 20 E2 9D A4.
pub const MESSAGE: &str = "1\u{FE0E} \u{2764}";
/// What it becomes.
pub const FORMATTED: &str = "1 \u{2764}\u{FE0E}";

/// The number of a user and a group that own nothing.
pub const NOBODY: u32 = 65534;

/// Whether this user is root.
pub fn is_root() -> bool {
    fs::metadata("/proc/self").is_ok_and(|own| own.uid() == 0)
}

/// A folder that is empty at first, and goes away at the end of a test that passes.
pub struct Folder(PathBuf);

/// What a run left.
pub struct Ran {
    pub status: i32,
    pub out: Vec<u8>,
    pub err: String,
}

impl Ran {
    /// What it wrote to standard output, as a text.
    pub fn text(&self) -> &str {
        std::str::from_utf8(&self.out).expect("a text")
    }
}

impl Folder {
    /// A folder of this name.
    pub fn new(name: &str) -> Self {
        let path = Path::new(env!("CARGO_TARGET_TMPDIR")).join(name);
        let _ = fs::remove_dir_all(&path);
        fs::create_dir_all(&path).expect("a folder");
        Self(path)
    }

    /// A path in it.
    pub fn path(&self, name: &str) -> PathBuf {
        self.0.join(name)
    }

    /// Writes a file.
    pub fn write(&self, name: &str, bytes: impl AsRef<[u8]>) {
        let path = self.path(name);
        fs::create_dir_all(path.parent().expect("a folder")).expect("a folder");
        fs::write(path, bytes).expect("written");
    }

    /// Reads a file.
    pub fn read(&self, name: &str) -> Vec<u8> {
        fs::read(self.path(name)).expect("read")
    }

    /// The names in it, in order.
    pub fn names(&self) -> Vec<String> {
        let entries = fs::read_dir(&self.0).expect("a folder");
        let name = |entry: std::io::Result<fs::DirEntry>| entry.expect("an entry").file_name();
        let mut names: Vec<String> = entries
            .map(|entry| name(entry).to_string_lossy().into_owned())
            .collect();
        names.sort();
        names
    }

    /// The paths of the files in it and in its folders, in order.
    pub fn paths(&self) -> Vec<String> {
        let mut paths = Vec::new();
        let mut left = vec![self.0.clone()];
        while let Some(folder) = left.pop() {
            for entry in fs::read_dir(folder).expect("a folder") {
                let entry = entry.expect("an entry");
                if entry.file_type().expect("a kind").is_dir() {
                    left.push(entry.path());
                } else {
                    let path = entry.path();
                    let path = path.strip_prefix(&self.0).expect("a path in it");
                    paths.push(path.to_string_lossy().into_owned());
                }
            }
        }
        paths.sort();
        paths
    }

    /// Runs the command in it, with nothing on standard input.
    pub fn run<S: AsRef<OsStr>>(&self, arguments: &[S]) -> Ran {
        self.run_with(arguments, b"")
    }

    /// Runs the command in it, with bytes on standard input.
    pub fn run_with<S: AsRef<OsStr>>(&self, arguments: &[S], input: &[u8]) -> Ran {
        let mut command = Command::new(COMMAND);
        command.args(arguments);
        self.run_command(command, input)
    }

    /// Makes all in it that of the user nobody, and gives the command as that user runs it; for a user who is not root it
    /// is the command as it is. There is none where nobody cannot reach the folder.
    pub fn as_nobody(&self) -> Option<Command> {
        let mut command = Command::new(COMMAND);
        if !is_root() {
            return Some(command);
        }
        let give = |path: &Path| lchown(path, Some(NOBODY), Some(NOBODY)).expect("given");
        let mut left = vec![self.0.clone()];
        while let Some(folder) = left.pop() {
            give(&folder);
            for entry in fs::read_dir(folder).expect("a folder") {
                let entry = entry.expect("an entry");
                give(&entry.path());
                if entry.file_type().expect("a kind").is_dir() {
                    left.push(entry.path());
                }
            }
        }
        command.uid(NOBODY).gid(NOBODY);
        let mut trial = Command::new(COMMAND);
        trial.uid(NOBODY).gid(NOBODY).current_dir(&self.0);
        let trial = trial.arg("version").output();
        trial
            .is_ok_and(|output| output.status.success())
            .then_some(command)
    }

    /// Runs a command in it, with bytes on standard input.
    pub fn run_command(&self, mut command: Command, input: &[u8]) -> Ran {
        command.current_dir(&self.0);
        command
            .stdin(Stdio::piped())
            .stdout(Stdio::piped())
            .stderr(Stdio::piped());
        let mut child = command.spawn().expect("a process");
        let mut stdin = child.stdin.take().expect("a pipe");
        let input = input.to_vec();
        // It may end before it has read everything.
        let writer = std::thread::spawn(move || drop(stdin.write_all(&input)));
        let output = child.wait_with_output().expect("an end");
        writer.join().expect("written");
        Ran {
            status: output.status.code().expect("no signal"),
            out: output.stdout,
            err: String::from_utf8(output.stderr).expect("a text"),
        }
    }
}

impl Drop for Folder {
    fn drop(&mut self) {
        if !std::thread::panicking() {
            let _ = fs::remove_dir_all(&self.0);
        }
    }
}
