//! The two programs, run as a user runs them: the text on the standard input, the result on the standard output.

use std::io::{self, Write};
use std::path::{Path, PathBuf};
use std::process::{Command, Stdio};

use super::lent::{hexadecimal, same};
use super::limits::sparse;
use super::reduce::reduced_text;
use super::texts::Alphabet;
use crate::Random;
use crate::reference::programs::{LONGEST_TO_FORMAT, LONGEST_TO_REPORT, formatted, report};

/// How many drawn texts, and as many damaged ones, a program is run on.
const DRAWN: usize = 150;

/// The paths of the two programs.
#[derive(Debug, Clone, PartialEq, Eq)]
pub struct Programs {
    /// The one that writes the formatted text.
    pub format: PathBuf,
    /// The one that writes the report.
    pub report: PathBuf,
}

impl Programs {
    /// Runs both on drawn texts, damaged ones, and texts around the two limits. True if there was no difference; the first
    /// one is printed.
    pub fn compare(&self, seed: u64, out: &mut dyn Write) -> io::Result<bool> {
        let inputs = inputs(seed);
        for (path, expected) in [
            (&self.format, formatted as fn(&[u8]) -> Vec<u8>),
            (&self.report, report),
        ] {
            for input in &inputs {
                if written(path, input)? == expected(input) {
                    continue;
                }
                // A program that cannot be run again has no smaller input.
                let differs = |input: &[u8]| {
                    written(path, input).is_ok_and(|written| written != expected(input))
                };
                let input = reduced_text(input, differs);
                let name = || format!("{} on {}", path.display(), hexadecimal(&input));
                let found = written(path, &input)?;
                let difference = same(name, &expected(&input), &found, |bytes| hexadecimal(bytes));
                writeln!(out, "difference in programs")?;
                if let Err(difference) = difference {
                    writeln!(out, "{difference}")?;
                }
                return Ok(false);
            }
        }
        writeln!(out, "programs    {:>9} inputs of each", inputs.len())?;
        Ok(true)
    }
}

/// What a program writes on an input.
pub fn written(path: &Path, input: &[u8]) -> io::Result<Vec<u8>> {
    let mut child = Command::new(path)
        .stdin(Stdio::piped())
        .stdout(Stdio::piped())
        .spawn()?;
    if let Some(mut stdin) = child.stdin.take() {
        // A program may end before it has read a text that is too long.
        match stdin.write_all(input) {
            Err(error) if error.kind() != io::ErrorKind::BrokenPipe => return Err(error),
            _ => {}
        }
    }
    Ok(child.wait_with_output()?.stdout)
}

/// The inputs: the worked example, none, drawn and damaged ones, and those around the two limits.
fn inputs(seed: u64) -> Vec<Vec<u8>> {
    let mut random = Random::from_seed(seed);
    let alphabet = Alphabet::new();
    let mut inputs = vec!["1\u{FE0E} \u{2764}".into(), Vec::new()];
    for _ in 0..DRAWN {
        inputs.push(alphabet.drawn(&mut random));
        inputs.push(alphabet.damaged(&mut random));
    }
    let around = |limit: usize| limit - 1..=limit + 1;
    for length in around(LONGEST_TO_REPORT).chain(around(LONGEST_TO_FORMAT)) {
        inputs.push(sparse(length));
        inputs.push("\u{A9}".repeat(length / 2).into_bytes());
        inputs.push(vec![0xFF; length]);
    }
    inputs
}
