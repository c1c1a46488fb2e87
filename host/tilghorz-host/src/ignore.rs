//! What `.gitignore` files say of the entries of a folder.

use std::fs;
use std::io;
use std::path::{Path, PathBuf};
use std::sync::Arc;

use crate::glob::{Glob, units};

/// The name of such a file.
pub const FILE: &str = ".gitignore";

/// The files that count for a folder: those of the folders above it first.
#[derive(Default)]
pub struct Ignores {
    files: Vec<Ignore>,
}

/// A file.
struct Ignore {
    path: Arc<Path>,
    /// The number of names in a path that lead to the folder of this file.
    depth: usize,
    patterns: Vec<Pattern>,
}

/// A line of a file.
struct Pattern {
    glob: Glob,
    /// Whether it takes back what a line before it said.
    is_negated: bool,
}

impl Ignores {
    /// How many files there are.
    pub fn len(&self) -> usize {
        self.files.len()
    }

    /// Forgets all but the first of them.
    pub fn truncate(&mut self, length: usize) {
        self.files.truncate(length);
    }

    /// Adds the file of a folder. `depth` is the number of names in the path that lead to this folder.
    pub fn add(&mut self, folder: &Path, depth: usize) -> io::Result<()> {
        let path = folder.join(FILE);
        let patterns = patterns(&fs::read(&path)?);
        self.files.push(Ignore {
            path: path.into(),
            depth,
            patterns,
        });
        Ok(())
    }

    /// The file by which the entry at a path is ignored, if it is. The last line that is for it decides, in the file that
    /// stands nearest to it.
    pub fn ignoring(&self, path: &[Vec<u32>], is_folder: bool) -> Option<Arc<Path>> {
        for file in self.files.iter().rev() {
            let below = path.get(file.depth..)?;
            let mut last_first = file.patterns.iter().rev();
            if let Some(line) = last_first.find(|line| line.glob.matches(below, is_folder)) {
                return (!line.is_negated).then(|| Arc::clone(&file.path));
            }
        }
        None
    }
}

/// The folders from the root of the repository in which a folder stands down to the one above it, by whether there is a
/// `.git`; none where there is no repository.
pub fn folders_above(folder: &Path) -> Vec<PathBuf> {
    let mut above = Vec::new();
    for each in folder.ancestors() {
        if each != folder {
            above.push(each.to_owned());
        }
        if fs::symlink_metadata(each.join(".git")).is_ok() {
            above.reverse();
            return above;
        }
    }
    Vec::new()
}

/// The patterns of a file. A line that is none is for nothing.
fn patterns(text: &[u8]) -> Vec<Pattern> {
    let text = text.strip_prefix(b"\xEF\xBB\xBF").unwrap_or(text);
    text.split(|byte| *byte == b'\n')
        .filter_map(pattern)
        .collect()
}

/// The pattern of a line.
fn pattern(line: &[u8]) -> Option<Pattern> {
    let line = line.strip_suffix(b"\r").unwrap_or(line);
    if line.starts_with(b"#") {
        return None;
    }
    let line = without_blanks_at_end(line);
    let (line, is_negated) = match line.strip_prefix(b"!") {
        Some(rest) => (rest, true),
        None => (line, false),
    };
    let glob = Glob::parse(line).ok()?;
    Some(Pattern { glob, is_negated })
}

/// A line without the blanks at its end, but for one after a backslash.
fn without_blanks_at_end(line: &[u8]) -> &[u8] {
    let mut end = line.len();
    while end > 0 && line[end - 1] == b' ' {
        end -= 1;
    }
    let backslashes = line[..end].iter().rev().take_while(|byte| **byte == b'\\');
    let keeps_one = backslashes.count() % 2 == 1 && end < line.len();
    &line[..end + usize::from(keeps_one)]
}

/// The names of a path, for patterns.
pub fn names(path: &Path) -> Vec<Vec<u32>> {
    use std::os::unix::ffi::OsStrExt;
    path.iter().map(|name| units(name.as_bytes())).collect()
}

#[cfg(test)]
mod tests {
    use super::*;

    /// The paths that a file with these lines in the folder `in` ignores, with those that stand in a second file.
    fn ignored<'a>(first: &str, second: &str, paths: &[&'a str]) -> Vec<&'a str> {
        let file = |text: &str, depth| Ignore {
            path: Path::new(FILE).into(),
            depth,
            patterns: patterns(text.as_bytes()),
        };
        let ignores = Ignores {
            files: vec![file(first, 0), file(second, 1)],
        };
        let is_ignored = |path: &&str| {
            let names = names(Path::new(path));
            ignores.ignoring(&names, path.ends_with('/')).is_some()
        };
        paths.iter().copied().filter(is_ignored).collect()
    }

    #[test]
    fn the_last_line_that_matches_decides() {
        let lines = "# a comment\n*.log\n!keep.log\r\n\n/top\nout/\n\\#file\n\\!file\n";
        let paths = [
            "a.log",
            "keep.log",
            "in/b.log",
            "top",
            "in/top",
            "out/",
            "out",
            "#file",
            "!file",
            "# a comment",
        ];
        assert_eq!(
            ignored(lines, "", &paths),
            ["a.log", "in/b.log", "top", "out/", "#file", "!file"]
        );
    }

    #[test]
    fn the_file_that_stands_nearest_decides() {
        let paths = ["a.log", "in/a.log", "in/b.log", "in/c", "c", "in/deep/c"];
        assert_eq!(
            ignored("*.log\n", "!a.log\n/c\n", &paths),
            ["a.log", "in/b.log", "in/c"]
        );
    }

    #[test]
    fn blanks_at_the_end_go_unless_they_are_meant() {
        let paths = ["a", "a ", "b ", "b", "c\\", "c\\ "];
        assert_eq!(
            ignored("a  \nb\\ \nc\\\\ \n", "", &paths),
            ["a", "b ", "c\\"]
        );
        assert_eq!(ignored("\u{FEFF}a\n[\n", "", &paths), ["a"]);
    }
}
