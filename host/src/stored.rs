//! The stored files that this package makes: what the program `vectors` replays and is to write, what the two programs are
//! to write on their stored inputs, and what `findings_table` is to write. The program `stored-answers` makes and checks them.

use std::collections::BTreeSet;
use std::path::{Path, PathBuf};
use std::{fs, io};

use crate::reference::programs;
use crate::{PARTS, Part};

/// The folder of the parts, from the repository root.
const PARTS_FOLDER: &str = "crates/vectors/data";
/// What the program `vectors` is to write.
const REPLAYED: &str = "crates/vectors/stdout";
/// The folder of the two programs' stored runs.
const RUNS_FOLDER: &str = "tests/programs";
/// The program that holds the table of structs to the table of bytes, and how many places its table has.
const TABLE_PROGRAM: &str = "crates/findings_table";
const TABLE_PLACES: usize = 8;
/// What a program writes on an input.
type Output = fn(&[u8]) -> Vec<u8>;
/// The two programs, and what they are to write by document 01.
const PROGRAMS: [(&str, Output); 2] = [
    ("format", programs::formatted),
    ("report", programs::report),
];

/// A stored file.
pub struct Stored {
    /// Its path from the repository root.
    pub path: PathBuf,
    /// What it is to hold.
    pub bytes: Vec<u8>,
}

impl Stored {
    fn new(path: impl Into<PathBuf>, bytes: Vec<u8>) -> Self {
        let path = path.into();
        Self { path, bytes }
    }
}

/// The repository root, in which `host/` stands.
#[must_use]
pub fn repository_root() -> PathBuf {
    Path::new(env!("CARGO_MANIFEST_DIR")).join("..")
}

/// Every stored file as it is to be in the repository at this root.
pub fn files(root: &Path) -> io::Result<Vec<Stored>> {
    let parts = PARTS.map(|part| (part.name, (part.answers)()));
    let mut files = vec![Stored::new(REPLAYED, replayed(root, &parts)?)];
    for (name, answers) in parts {
        let path = Path::new(PARTS_FOLDER).join(file_name(name));
        files.push(Stored::new(path, answers.into_bytes()));
    }
    for (program, output) in PROGRAMS {
        let folder = Path::new("crates").join(program);
        let input = fs::read(root.join(&folder).join("stdin"))?;
        files.push(Stored::new(folder.join("stdout"), output(&input)));
    }
    let table_program = Path::new(TABLE_PROGRAM);
    let lines = fs::read(root.join(table_program).join("stdin"))?;
    files.push(Stored::new(
        table_program.join("stdout"),
        tables_listed(&lines),
    ));
    for input in names(root, RUNS_FOLDER)? {
        let input = Path::new(RUNS_FOLDER).join(input);
        if input.extension().is_some_and(|extension| extension == "in") {
            let text = fs::read(root.join(&input))?;
            let run = |(program, output): (_, Output)| {
                Stored::new(input.with_extension(program), output(&text))
            };
            files.extend(PROGRAMS.map(run));
        }
    }
    Ok(files)
}

/// What `findings_table` is to write on lines of which each is a text: how many there are, the findings of those whose
/// findings have a place each, and how many are refused.
fn tables_listed(lines: &[u8]) -> Vec<u8> {
    let mut texts: Vec<&[u8]> = lines.split(|&byte| byte == b'\n').collect();
    texts.pop();
    let counts = texts.iter().filter_map(|text| {
        let report = programs::report(text);
        let findings = report.iter().filter(|&&byte| byte == b'\n').count() - 1;
        let is_listed = !report.starts_with(b"refused") && findings <= TABLE_PLACES;
        is_listed.then_some(findings)
    });
    let listed: Vec<usize> = counts.collect();
    let (all, findings) = (texts.len(), listed.iter().sum::<usize>());
    let refused = all - listed.len();
    format!("{all} lines, {findings} findings, {refused} refused, 0 different\n").into_bytes()
}

/// Writes every stored file.
pub fn make(root: &Path) -> io::Result<()> {
    for Stored { path, bytes } in files(root)? {
        fs::write(root.join(path), bytes)?;
    }
    Ok(())
}

/// A line for every stored file that is not as it is to be, and for every file among the parts that is none.
pub fn faults(root: &Path) -> io::Result<Vec<String>> {
    let files = files(root)?;
    let mut faults = Vec::new();
    for Stored { path, bytes } in &files {
        let is_as_made = fs::read(root.join(path)).is_ok_and(|stored| stored == *bytes);
        if !is_as_made {
            faults.push(format!("{}: not what stored-answers makes", path.display()));
        }
    }
    for name in names(root, PARTS_FOLDER)? {
        let path = Path::new(PARTS_FOLDER).join(name);
        if !files.iter().any(|file| file.path == path) {
            faults.push(format!(
                "{}: stored-answers does not make it",
                path.display()
            ));
        }
    }
    Ok(faults)
}

/// The name of a part's file.
fn file_name(part: &str) -> String {
    format!("{part}.txt")
}

/// The names in a folder, in order.
fn names(root: &Path, folder: &str) -> io::Result<BTreeSet<PathBuf>> {
    let entries = fs::read_dir(root.join(folder))?;
    entries.map(|entry| Ok(entry?.file_name().into())).collect()
}

/// What the program `vectors` is to write: the lines on its own tests as they are stored, and the lines on the parts.
fn replayed(root: &Path, parts: &[(&str, String)]) -> io::Result<Vec<u8>> {
    let stored = fs::read_to_string(root.join(REPLAYED))?;
    let is_of_part = |line: &str| PARTS.iter().any(|part| is_of(line, part));
    let own = stored.lines().filter(|line| !is_of_part(line));
    let mut text: String = own.flat_map(|line| [line, "\n"]).collect();
    for (name, answers) in parts {
        text.push_str(&replayed_part(&file_name(name), answers));
    }
    Ok(text.into_bytes())
}

/// Whether a line that `vectors` writes is on a part.
fn is_of(line: &str, part: &Part) -> bool {
    line.split_once(": ")
        .is_some_and(|(file, _)| file == file_name(part.name))
}

/// What `vectors` writes on a part: how many lines there are of each keyword, but for the last, and of all.
fn replayed_part(file: &str, answers: &str) -> String {
    let mut keywords: Vec<(&str, usize)> = Vec::new();
    for line in answers.lines().filter(|line| !line.starts_with('#')) {
        let keyword = line.split(' ').next().unwrap_or_default();
        match keywords.iter_mut().find(|(known, _)| *known == keyword) {
            Some((_, count)) => *count += 1,
            None => keywords.push((keyword, 1)),
        }
    }
    keywords.retain(|(keyword, _)| *keyword != "end");
    let all: usize = keywords.iter().map(|(_, count)| count).sum();
    let sum = adler_32(answers.as_bytes());
    let lines = keywords.iter();
    let lines = lines.map(|(keyword, count)| format!("{file}: {keyword} {count} as stored\n"));
    lines.collect::<String>() + &format!("{file}: in all {all} as stored, Adler-32 {sum:08x}\n")
}

/// The Adler-32 of some bytes (RFC 1950).
fn adler_32(bytes: &[u8]) -> u32 {
    let (mut low, mut high) = (1, 0);
    for &byte in bytes {
        low = (low + u32::from(byte)) % 65_521;
        high = (high + low) % 65_521;
    }
    high << 16 | low
}
