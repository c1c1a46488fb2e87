//! The texts of Unicode's lists of emoji, where they are installed: Debian has them in the package unicode-data. They
//! are no part of the repository, and need not be of the version of its tables.

use std::collections::BTreeSet;
use std::path::{Path, PathBuf};
use std::{env, fs};

use crate::sequences::sequence;

/// The variable that names the folder of the lists.
pub const VARIABLE: &str = "UNICODE_EMOJI";
/// Where the lists are without the variable.
const FOLDER: &str = "/usr/share/unicode/emoji";
/// The lists.
pub const LISTS: [&str; 3] = [
    "emoji-test.txt",
    "emoji-sequences.txt",
    "emoji-zwj-sequences.txt",
];

/// The folder of the lists.
#[must_use]
pub fn folder() -> PathBuf {
    let named = env::var_os(VARIABLE).filter(|name| !name.is_empty());
    named.map_or_else(|| PathBuf::from(FOLDER), PathBuf::from)
}

/// What was read of the lists.
#[derive(Debug, Default)]
pub struct Read {
    /// The texts.
    pub texts: BTreeSet<String>,
    /// The lists that cannot be read.
    pub missing: Vec<&'static str>,
    /// The lists that have no text.
    pub empty: Vec<&'static str>,
}

/// Reads the lists of a folder.
#[must_use]
pub fn texts(folder: &Path) -> Read {
    let mut read = Read::default();
    for list in LISTS {
        match fs::read_to_string(folder.join(list)) {
            Err(_) => read.missing.push(list),
            Ok(file) => {
                let texts: Vec<String> = file.lines().flat_map(line_texts).collect();
                if texts.is_empty() {
                    read.empty.push(list);
                }
                read.texts.extend(texts);
            }
        }
    }
    read
}

/// The texts of a line such as `1F44B 1F3FB ; fully-qualified # ..` or `231A..231B ; Basic_Emoji ; ..`.
#[must_use]
pub fn line_texts(line: &str) -> Vec<String> {
    let line = line.split('#').next().unwrap_or_default();
    let Some((points, _)) = line.split_once(';') else {
        return Vec::new();
    };
    match points.split_once("..") {
        None => sequence(points).into_iter().collect(),
        Some((first, last)) => match (sequence(first), sequence(last)) {
            (Some(first), Some(last)) => range(&first, &last),
            _ => Vec::new(),
        },
    }
}

/// Each character from one to another, as a text.
fn range(first: &str, last: &str) -> Vec<String> {
    match (first.chars().next(), last.chars().next()) {
        (Some(first), Some(last)) => (first..=last).map(String::from).collect(),
        _ => Vec::new(),
    }
}

/// A text as it is, without its selectors, with the other one of each, with a selector after each character that is
/// none, and after a text of its own kind, with and without a link between them.
#[must_use]
pub fn forms(text: &str, before: &str) -> Vec<String> {
    let bare: String = text.chars().filter(|of| !is_selector(*of)).collect();
    let other = |character| match character {
        '\u{FE0E}' => '\u{FE0F}',
        '\u{FE0F}' => '\u{FE0E}',
        any => any,
    };
    let with = |selector| bare.chars().flat_map(move |of| [of, selector]).collect();
    vec![
        text.to_owned(),
        text.chars().map(other).collect(),
        with('\u{FE0E}'),
        with('\u{FE0F}'),
        format!("{before}{text}"),
        format!("{before}\u{200D}{bare}"),
        bare,
    ]
}

/// Whether a character is one of the two selectors.
const fn is_selector(character: char) -> bool {
    matches!(character, '\u{FE0E}' | '\u{FE0F}')
}
