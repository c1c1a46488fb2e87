//! Where texts come from: standard input and files.

use std::ffi::OsStr;
use std::fmt::{self, Display, Formatter};
use std::fs::{File, Metadata};
use std::io::{self, Read};
use std::os::unix::ffi::OsStrExt;
use std::path::{Path, PathBuf};

use tilghorz::{LONGEST_TEXT, Refusal};

use crate::visible;

/// Where a text comes from.
#[derive(Debug, Clone, PartialEq, Eq)]
pub enum Source {
    /// Standard input.
    Input,
    /// Standard input, under a name.
    Named(PathBuf),
    /// A file.
    File(PathBuf),
}

/// A text that was read.
pub struct Text {
    /// Its bytes: all of them, or one more than a text may have.
    pub bytes: Vec<u8>,
    /// Its file, and what that was when it was read.
    pub file: Option<(File, Metadata)>,
}

impl Source {
    /// The source of a name.
    pub fn of(name: &OsStr) -> Self {
        if name == "-" {
            Self::Input
        } else {
            Self::File(name.into())
        }
    }

    /// Whether it is standard input.
    pub fn is_input(&self) -> bool {
        !matches!(self, Self::File(_))
    }

    /// Reads the text. More than the library needs to refuse it is not read.
    pub fn read(&self) -> io::Result<Text> {
        match self {
            Self::Input | Self::Named(_) => {
                let mut bytes = Vec::new();
                io::stdin().lock().take(MOST).read_to_end(&mut bytes)?;
                Ok(Text { bytes, file: None })
            }
            Self::File(path) => {
                let (mut file, metadata) = open(path)?;
                let mut bytes = Vec::with_capacity(room(&metadata));
                file.by_ref().take(MOST).read_to_end(&mut bytes)?;
                Ok(Text {
                    bytes,
                    file: Some((file, metadata)),
                })
            }
        }
    }

    /// Reads the text, unless it has a byte 00. Of what has one among its first bytes no more is read.
    pub fn read_unless_binary(&self) -> io::Result<Option<Text>> {
        const FIRST: u64 = 1 << 16;
        let Self::File(path) = self else {
            return self.read().map(Some);
        };
        let (mut file, metadata) = open(path)?;
        let mut bytes = Vec::with_capacity(room(&metadata));
        for most in [FIRST, MOST - FIRST] {
            let length = file.by_ref().take(most).read_to_end(&mut bytes)?;
            if bytes[bytes.len() - length..].contains(&0) {
                return Ok(None);
            }
            if (length as u64) < most {
                break;
            }
        }
        Ok(Some(Text {
            bytes,
            file: Some((file, metadata)),
        }))
    }

    /// The message that the text was refused.
    pub fn refused(&self, refusal: Refusal, text: &[u8]) -> String {
        let line = match refusal {
            Refusal::NotWellFormed { valid_up_to } => line_of(text, valid_up_to),
            _ => 1,
        };
        self.refused_in_line(refusal, line)
    }

    /// The message that the text was refused; where it is damaged, that is in this line.
    pub fn refused_in_line(&self, refusal: Refusal, line: usize) -> String {
        let number = refusal.number();
        match refusal {
            Refusal::NotWellFormed { .. } => {
                format!("{self}: refused {number}: {refusal}, in line {line}")
            }
            _ => format!("{self}: refused {number}: {refusal}"),
        }
    }

    /// The name as it stands before a line and a column.
    pub fn label(&self) -> String {
        match self {
            Self::Input => "-".to_owned(),
            Self::Named(_) | Self::File(_) => self.to_string(),
        }
    }

    /// The bytes of its name.
    pub fn name(&self) -> &[u8] {
        match self {
            Self::Input => b"-",
            Self::Named(path) | Self::File(path) => path.as_os_str().as_bytes(),
        }
    }
}

/// The most bytes that are read of a text.
const MOST: u64 = LONGEST_TEXT as u64 + 1;

/// Opens a file.
fn open(path: &Path) -> io::Result<(File, Metadata)> {
    let file = File::open(path)?;
    let metadata = file.metadata()?;
    Ok((file, metadata))
}

/// The room to make for the bytes of a file.
fn room(metadata: &Metadata) -> usize {
    metadata.len().min(MOST) as usize + 1
}

/// The number of the line in which a byte is, counted from 1.
pub fn line_of(text: &[u8], offset: usize) -> usize {
    let before = text.iter().take(offset);
    1 + before.filter(|byte| **byte == b'\n').count()
}

impl Display for Source {
    /// The name for a person. One with control characters, invisible characters or characters that turn the direction of a
    /// line, or that is not UTF-8, is quoted, with these escaped.
    fn fmt(&self, out: &mut Formatter<'_>) -> fmt::Result {
        let path = match self {
            Self::Input => return out.write_str("standard input"),
            Self::Named(path) | Self::File(path) => path,
        };
        match path.to_str() {
            Some(name) if !name.contains(visible::is_harmful) => out.write_str(name),
            _ => write!(out, "{path:?}"),
        }
    }
}

#[cfg(test)]
mod tests {
    use super::*;

    #[test]
    fn names_are_harmless() {
        let shown = |name: &[u8]| Source::of(OsStr::from_bytes(name)).to_string();
        assert_eq!(shown(b"-"), "standard input");
        assert_eq!(
            shown("a b\u{E9}\"\u{2764}\u{FE0F}".as_bytes()),
            "a b\u{E9}\"\u{2764}\u{FE0F}"
        );
        assert_eq!(
            shown("\u{1F469}\u{200D}\u{1F4BB}".as_bytes()),
            "\u{1F469}\u{200D}\u{1F4BB}"
        );
        assert_eq!(shown(b"a\nb\x1B[2J"), "\"a\\nb\\u{1b}[2J\"");
        assert_eq!(shown("txt.\u{202E}exe".as_bytes()), "\"txt.\\u{202e}exe\"");
        assert_eq!(
            shown("a\u{2066}\u{200B}".as_bytes()),
            "\"a\\u{2066}\\u{200b}\""
        );
        assert_eq!(shown(b"a\xFFb"), "\"a\\xFFb\"");
    }
}
