//! Makes the crate evfmt: its nine files and the Unicode tables that they include.
//!
//! Into OUT_DIR go `unicode_data.rs` with the tables, and `evfmt/` with the nine files unchanged, a `modules.rs`
//! that makes them modules of the crate root, and empty test modules. A fault is told to cargo in one line and
//! ends the build.

mod sources;
mod unicode_data;

use std::path::{Path, PathBuf};
use std::{env, fs};

/// The folder of the two data files, from the repository root.
const DATA_FOLDER: &str = "crates/published_data/data";

/// The nine files as modules of the crate root, where they look for each other. The public ones are those
/// that the examples in the files name. It is written beside the files.
const MODULES: &str = "\
pub mod analysis;
mod formatter;
mod policy;
pub mod policy_key_set;
mod presentation;
pub mod scanner;
mod unicode;
";

/// The test modules that the files ask for under `cfg(test)`. They are not among the nine, and empty here.
const TEST_MODULES: [&str; 5] = [
    "analysis/tests.rs",
    "formatter/tests.rs",
    "policy_key_set/tests.rs",
    "scanner/tests.rs",
    "unicode/tests.rs",
];

fn main() {
    if let Err(fault) = build() {
        println!("cargo::error={fault}");
    }
}

/// Does the whole work, or says in one line why it cannot be done.
fn build() -> Result<(), String> {
    let root = repository_root()?;
    let out = PathBuf::from(variable("OUT_DIR")?);
    make_tables(&root.join(DATA_FOLDER), &out)?;
    copy_sources(&sources::folder(&root), &out)
}

/// The repository root: the parent of `host/`, in which this package stands.
fn repository_root() -> Result<PathBuf, String> {
    let package = PathBuf::from(variable("CARGO_MANIFEST_DIR")?);
    match package.ancestors().nth(2) {
        Some(root) => Ok(root.to_owned()),
        None => Err("this package does not stand at host/evfmt of a repository".to_owned()),
    }
}

/// The value of a variable that cargo sets.
fn variable(name: &str) -> Result<String, String> {
    env::var(name).map_err(|error| format!("{name}: {error}"))
}

/// Writes `unicode_data.rs` from the two data files.
fn make_tables(data: &Path, out: &Path) -> Result<(), String> {
    let emoji_data = read_data(data, unicode_data::EMOJI_DATA)?;
    let variation_sequences = read_data(data, unicode_data::VARIATION_SEQUENCES)?;
    let tables = unicode_data::Tables::parse(&emoji_data, &variation_sequences)?;
    println!("cargo::rustc-env=EVFMT_UNICODE_VERSION={}", tables.version);
    write(&out.join("unicode_data.rs"), &tables.source())
}

/// The text of a data file.
fn read_data(data: &Path, name: &str) -> Result<String, String> {
    let path = data.join(name);
    println!("cargo::rerun-if-changed={}", path.display());
    fs::read_to_string(&path)
        .map_err(|error| format!("the data file {DATA_FOLDER}/{name} cannot be read: {error}"))
}

/// Makes the folder `evfmt/`.
fn copy_sources(folder: &Path, out: &Path) -> Result<(), String> {
    println!("cargo::rerun-if-env-changed={}", sources::VARIABLE);
    let out = out.join("evfmt");
    for (name, lines) in sources::FILES {
        println!(
            "cargo::rerun-if-changed={}",
            sources::path(folder, name).display()
        );
        write(&out.join(name), &sources::read(folder, name, lines)?)?;
    }
    for name in TEST_MODULES {
        write(&out.join(name), "")?;
    }
    write(&out.join("modules.rs"), MODULES)
}

/// Writes a file, and makes its folder first.
fn write(path: &Path, text: &str) -> Result<(), String> {
    path.parent()
        .map_or(Ok(()), fs::create_dir_all)
        .and_then(|()| fs::write(path, text))
        .map_err(|error| format!("{} cannot be written: {error}", path.display()))
}
