//! The nine files of the crate evfmt (repository favonia/evfmt, 73259c7d00, licence MIT OR Apache-2.0).
//!
//! They are not part of this repository. They are read where they lie, tested for their length, and
//! otherwise left alone.

use std::path::{Path, PathBuf};
use std::{env, fs};

/// The variable that names the folder of the nine files: the one that has `evfmt/src/` and INDEX.md in it.
/// A relative name counts from the repository root.
pub const VARIABLE: &str = "EVFMT_SRC";

/// Where the folder is without the variable, from the repository root.
const BESIDE_THE_REPOSITORY: &str = "../shared/docs/src";

/// The nine files below `evfmt/src/`, each with its number of lines in INDEX.md. INDEX.md counts what stands
/// after the last line feed as a line too, although nothing does.
pub const FILES: [(&str, usize); 9] = [
    ("scanner.rs", 790),
    ("analysis.rs", 595),
    ("analysis/types.rs", 515),
    ("analysis/render.rs", 59),
    ("formatter.rs", 99),
    ("policy.rs", 255),
    ("policy_key_set.rs", 430),
    ("unicode.rs", 178),
    ("presentation.rs", 40),
];

/// The folder of the nine files.
pub fn folder(repository_root: &Path) -> PathBuf {
    let named = env::var_os(VARIABLE).filter(|name| !name.is_empty());
    repository_root.join(named.unwrap_or_else(|| BESIDE_THE_REPOSITORY.into()))
}

/// The path of one of the nine files.
pub fn path(folder: &Path, name: &str) -> PathBuf {
    folder.join("evfmt/src").join(name)
}

/// The text of one of the nine files, if it is there and has the published number of lines.
pub fn read(folder: &Path, name: &str, lines: usize) -> Result<String, String> {
    let path = path(folder, name);
    let text = fs::read_to_string(&path).map_err(|error| missing(&path, &error.to_string()))?;
    let found = text.split('\n').count();
    if found == lines {
        Ok(text)
    } else {
        Err(format!(
            "{} is not the published file of the crate evfmt: {found} lines, INDEX.md says {lines}",
            path.display()
        ))
    }
}

/// The one line that says what is missing and what to do.
fn missing(path: &Path, error: &str) -> String {
    format!(
        "the crate evfmt's nine source files, which are not part of this repository, are missing: {} ({error}); \
         set {VARIABLE} to the folder that has evfmt/src/ in it, or put that folder at {BESIDE_THE_REPOSITORY} \
         beside the repository",
        path.display()
    )
}
