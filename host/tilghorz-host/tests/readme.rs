//! The examples of README.md and of docs/FIRST-HOUR.md: each line after `$ ` is run as it stands, and must write what stands
//! below it. Those that call `./tilghorz` are run by tools/program_runs.py, which has the programs at hand.

mod support;

use std::env;
use std::fs;
use std::path::Path;
use std::process::{Command, Stdio};

use support::{COMMAND, Folder};

/// The commands of the blocks `console`, each with what it is to write.
fn examples(readme: &str) -> Vec<(String, String)> {
    let mut examples: Vec<(String, String)> = Vec::new();
    for block in readme.split("```console\n").skip(1) {
        let (block, _) = block.split_once("```").expect("an end");
        for line in block.lines() {
            match (line.strip_prefix("$ "), examples.last_mut()) {
                (Some(command), _) => examples.push((command.to_owned(), String::new())),
                (None, Some((_, output))) => output.extend([line, "\n"]),
                (None, None) => panic!("no command before {line}"),
            }
        }
    }
    examples.retain(|(command, _)| !command.contains("./tilghorz "));
    examples
}

#[test]
fn the_examples_write_what_the_readme_says() {
    run_examples("README.md", 50);
}

#[test]
fn the_examples_write_what_the_first_hour_says() {
    run_examples("docs/FIRST-HOUR.md", 8);
}

/// Runs the examples of a document in a folder of its own. It must have at least `fewest` examples.
fn run_examples(document: &str, fewest: usize) {
    let root = Path::new(env!("CARGO_MANIFEST_DIR")).join("../..");
    let examples = examples(&fs::read_to_string(root.join(document)).expect("a document"));
    assert!(examples.len() >= fewest, "{} examples", examples.len());
    let folder = Folder::new(&document.replace('/', "-"));
    let own = Path::new(COMMAND).parent().expect("a folder");
    let paths = env::var_os("PATH").unwrap_or_default();
    let paths = [own.to_owned()].into_iter().chain(env::split_paths(&paths));
    let paths = env::join_paths(paths).expect("paths");
    for (command, expected) in examples {
        let mut shell = Command::new("sh");
        shell.args(["-c", &format!("exec 2>&1; {command}")]);
        shell
            .current_dir(folder.path(""))
            .env("PATH", &paths)
            .stdin(Stdio::null());
        let output = shell.output().expect("a shell");
        assert_eq!(
            String::from_utf8_lossy(&output.stdout),
            expected,
            "{command}"
        );
    }
}
