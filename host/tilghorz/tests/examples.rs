//! The programs in `examples/`: each line after `$ ` in a program's own comment is run as it stands, and must write what
//! stands below it. `cargo test` builds the programs.

use std::env;
use std::fs;
use std::path::{Path, PathBuf};
use std::process::{Command, Stdio};

/// The folder of the built programs, which is next to that of the tests.
fn built() -> PathBuf {
    let test = env::current_exe().expect("this test");
    let folder = test.ancestors().nth(2).expect("a folder");
    folder.join("examples")
}

/// The commands in a program's comment, each with what it is to write.
fn commands(source: &str) -> Vec<(String, String)> {
    let comment = source.lines().map_while(|line| line.strip_prefix("//!"));
    let lines = comment.map(|line| line.strip_prefix(' ').unwrap_or(line));
    let block = lines.skip_while(|line| *line != "```console").skip(1);
    let mut commands: Vec<(String, String)> = Vec::new();
    for line in block.take_while(|line| *line != "```") {
        match (line.strip_prefix("$ "), commands.last_mut()) {
            (Some(command), _) => commands.push((command.to_owned(), String::new())),
            (None, Some((_, output))) => output.extend([line, "\n"]),
            (None, None) => panic!("no command before {line}"),
        }
    }
    commands
}

#[test]
fn the_examples_write_what_their_comments_say() {
    let paths = env::var_os("PATH").unwrap_or_default();
    let paths = [built()].into_iter().chain(env::split_paths(&paths));
    let paths = env::join_paths(paths).expect("paths");
    let folder = Path::new(env!("CARGO_MANIFEST_DIR")).join("examples");
    let mut names = Vec::new();
    for entry in fs::read_dir(folder).expect("the examples") {
        let path = entry.expect("an example").path();
        let source = fs::read_to_string(&path).expect("an example");
        let name = path.file_stem().expect("a name").to_owned();
        let program = built().join(&name);
        assert!(
            program.is_file(),
            "cargo test has not built {}",
            program.display()
        );
        let commands = commands(&source);
        assert!(commands.len() >= 2, "{}", path.display());
        for (command, expected) in commands {
            let mut shell = Command::new("sh");
            shell.args(["-c", &format!("exec 2>&1; {command}")]);
            shell.env("PATH", &paths).stdin(Stdio::null());
            let output = shell.output().expect("a shell");
            assert_eq!(
                String::from_utf8_lossy(&output.stdout),
                expected,
                "{command}"
            );
        }
        names.push(name);
    }
    names.sort();
    assert_eq!(names, ["filing", "follow", "queue"]);
}

/// A long queue comes out in its order, whichever worker is faster.
#[test]
fn the_queue_keeps_its_order() {
    let lines = (0..20_000).map(|number| match number % 7 {
        0 => format!("{number} \u{2764}\n"),
        1 => format!("{number}{}\n", "\u{A9}".repeat(number % 200)),
        _ => format!("{number}\n"),
    });
    let queue: String = lines.collect();
    let mut program = Command::new(built().join("queue"));
    let folder = Path::new(env!("CARGO_TARGET_TMPDIR"));
    let input = folder.join("queue.in");
    fs::write(&input, &queue).expect("written");
    program.stdin(fs::File::open(input).expect("a file"));
    let output = program.output().expect("run");
    let policy = tilghorz::Policy::default();
    let expected = tilghorz::format_str(&queue, &policy).expect("a text");
    assert!(output.stdout == expected.as_bytes());
    assert!(output.stderr.is_empty());
}

/// If the reader of the queue's output goes away, the queue ends.
#[test]
fn the_queue_ends_with_its_reader() {
    let mut shell = Command::new("sh");
    let command = format!(
        "yes | '{}' 2>&1 >&3 | cat >&2",
        built().join("queue").display()
    );
    shell.args(["-c", &format!("{{ {command}; }} 3>&1 | head -n 1")]);
    let output = shell.output().expect("a shell");
    assert_eq!(output.stdout, b"y\n");
    assert!(!output.stderr.is_empty());
}
