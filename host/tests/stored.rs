//! Making and checking the stored files, in a folder of its own.

use std::path::{Path, PathBuf};
use std::{env, fs, process};

use tilghorz_comparison::stored::{faults, make};

/// A repository with what the stored files are made from. It goes away at the end.
struct Repository(PathBuf);

impl Repository {
    fn new(name: &str) -> Self {
        let root = env::temp_dir().join(format!("tilghorz-stored-{name}-{}", process::id()));
        let repository = Self(root);
        let example = "1\u{FE0E} \u{2764}".as_bytes();
        for (path, bytes) in [
            (
                "crates/vectors/stdout",
                &b"own: 5 as it should be\npolicy.txt: set 1 as stored\n"[..],
            ),
            ("crates/vectors/data/policy.txt", b""),
            ("crates/format/stdin", example),
            ("crates/report/stdin", example),
            (
                "crates/findings_table/stdin",
                "1\u{FE0E} \u{2764}\nab\n".as_bytes(),
            ),
            ("tests/programs/damaged.in", b"ab\xFF"),
        ] {
            repository.write(path, bytes);
        }
        repository
    }

    fn write(&self, path: &str, bytes: &[u8]) {
        let path = self.0.join(path);
        let folder = path.parent().expect("a folder");
        fs::create_dir_all(folder).expect("the folder is made");
        fs::write(path, bytes).expect("the file is written");
    }

    fn read(&self, path: &str) -> Vec<u8> {
        fs::read(self.0.join(path)).expect("the file is read")
    }

    fn faults(&self) -> Vec<String> {
        faults(&self.0).expect("the files are read")
    }
}

impl Drop for Repository {
    fn drop(&mut self) {
        // What is left over is in the folder of temporary files.
        let _ = fs::remove_dir_all(&self.0);
    }
}

#[test]
fn what_is_made_is_as_it_should_be() {
    let repository = Repository::new("made");
    assert!(repository.faults().len() >= 9);
    make(&repository.0).expect("the files are written");
    assert_eq!(repository.faults(), [""; 0]);
    let report = "0 4 0 0 0 0 0 0 1 0\n5 8 0 0 0 0 0 0 0 1\ntotal 0 0 0 0 0 0 1 1\n";
    assert_eq!(repository.read("crates/report/stdout"), report.as_bytes());
    assert_eq!(
        repository.read("crates/findings_table/stdout"),
        b"2 lines, 2 findings, 0 refused, 0 different\n"
    );
    assert_eq!(
        repository.read("tests/programs/damaged.format"),
        b"refused 3 2\n"
    );
    let replayed = String::from_utf8(repository.read("crates/vectors/stdout")).expect("a text");
    assert!(replayed.starts_with("own: 5 as it should be\npolicy.txt: entries 1 as stored\n"));
    assert!(replayed.contains("\nitems-short.txt: in all "));
}

#[test]
fn a_file_that_differs_or_is_not_made_is_told() {
    let repository = Repository::new("differs");
    make(&repository.0).expect("the files are written");
    repository.write("crates/vectors/data/items-drawn.txt", b"end\n");
    repository.write("crates/vectors/data/other.txt", b"end\n");
    fs::remove_file(repository.0.join("tests/programs/damaged.report")).expect("it is removed");
    let expected = [
        "crates/vectors/data/items-drawn.txt: not what stored-answers makes",
        "tests/programs/damaged.report: not what stored-answers makes",
        "crates/vectors/data/other.txt: stored-answers does not make it",
    ];
    assert_eq!(repository.faults(), expected);
}

#[test]
fn without_the_inputs_nothing_is_checked() {
    assert!(faults(Path::new("no such folder")).is_err());
    assert!(make(Path::new("no such folder")).is_err());
}
