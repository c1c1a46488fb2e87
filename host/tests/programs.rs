//! The stored runs of the two programs (tests/programs), which `stored-answers` makes by document 01, are also what the
//! crate evfmt says.

use std::fs;
use std::path::{Path, PathBuf};

use evfmt::Policy;
use tilghorz_comparison::beside;
use tilghorz_comparison::reference::programs::LONGEST_TO_FORMAT;

/// The inputs of the stored runs.
fn inputs() -> Vec<PathBuf> {
    let folder = Path::new(env!("CARGO_MANIFEST_DIR")).join("../tests/programs");
    let mut inputs: Vec<PathBuf> = fs::read_dir(folder)
        .expect("the folder of the stored runs")
        .map(|entry| entry.expect("an entry of the folder").path())
        .filter(|path| path.extension().is_some_and(|extension| extension == "in"))
        .collect();
    inputs.sort();
    inputs
}

/// The bytes of a file.
fn bytes(path: &Path) -> Vec<u8> {
    fs::read(path).unwrap_or_else(|error| panic!("{}: {error}", path.display()))
}

#[test]
fn the_stored_formatted_texts_are_the_crates() {
    let inputs = inputs();
    assert!(!inputs.is_empty());
    for path in inputs {
        let input = bytes(&path);
        let Ok(text) = str::from_utf8(&input) else {
            continue;
        };
        if input.len() <= LONGEST_TO_FORMAT {
            let expected = beside::formatted(text, &Policy::default()).unwrap_or(input.clone());
            assert!(
                bytes(&path.with_extension("format")) == expected,
                "{}",
                path.display()
            );
        }
    }
}
