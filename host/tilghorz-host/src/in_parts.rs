//! `tilghorz-host format --parts`: a text of any length, formatted in parts by several threads, in bounded memory. One big file
//! is formatted in the same way, and its parts are held until all of them are formatted.
//!
//! The parts formatted and joined are the text formatted: the theorem `EveryListOfParts` of crates/cutting.

use std::borrow::Cow;
use std::fs::File;
use std::io::{self, Read, Write};
use std::num::NonZero;

use tilghorz::{LONGEST_TEXT, Policy, Refusal};

use crate::console::{Console, Status};
use crate::cutter::{Cutter, Fault, Part};
use crate::in_order::in_order;
use crate::interrupt;
use crate::policy::PolicyFile;
use crate::replace::{Batch, Folders, InPlace};
use crate::rewriting::Mode;
use crate::source::{Source, Text};
use crate::threads::Threads;

/// The command.
#[derive(Debug, PartialEq, Eq)]
pub struct InParts {
    /// The policy.
    pub policy: PolicyFile,
    /// The text.
    pub source: Source,
    /// What is done with the formatted text.
    pub mode: Mode,
    /// How many threads work; else as many as there are processors.
    pub jobs: Option<NonZero<usize>>,
    /// How the file is changed, if it is.
    pub in_place: Option<InPlace>,
    /// Whether it is one text: it is not longer than a text may be, and nothing is written before all of it is formatted.
    pub is_whole: bool,
}

/// A part that is formatted.
struct Done {
    bytes: Vec<u8>,
    is_changed: bool,
    /// How many lines end in the part as it was.
    lines: usize,
}

/// Why the work stops.
enum Stop {
    /// There is no further part.
    Cutter(Fault),
    /// A part was refused, after this many lines of it.
    Refused(Refusal, usize),
    /// The output cannot be written.
    Unwritten(io::Error),
}

impl InParts {
    /// Formats the text. An error is one of standard output.
    pub fn run(&self, console: &mut Console) -> io::Result<Status> {
        let Some(policy) = self.policy.read_or_complain(console) else {
            return Ok(Status::Fault);
        };
        let done = match (self.mode, self.in_place) {
            (Mode::InPlace, Some(how)) => self.replace(&policy, how),
            _ => self.write(&policy, &mut console.out)?,
        };
        match done {
            Err(message) => {
                console.complain(&message);
                Ok(Status::Fault)
            }
            Ok(is_changed) => match self.mode {
                Mode::Check { null } if is_changed => {
                    console.out.write_all(self.source.name())?;
                    console.out.write_all(if null { b"\0" } else { b"\n" })?;
                    Ok(Status::Different)
                }
                _ => Ok(Status::Good),
            },
        }
    }

    /// Writes the formatted text, and says whether it differs. What is wrong with the text is told as a message; an error is
    /// one of the output.
    fn write(
        &self,
        policy: &Policy,
        out: &mut (dyn Write + Send),
    ) -> io::Result<Result<bool, String>> {
        let input: Box<dyn Read + Send> = match &self.source {
            Source::Input | Source::Named(_) => Box::new(io::stdin()),
            Source::File(_) => match self.open() {
                Ok((file, _)) => Box::new(file),
                Err(message) => return Ok(Err(message)),
            },
        };
        let mut held = Vec::new();
        let flowed = self.flow(input, policy, &mut |bytes| {
            match (self.mode, self.is_whole) {
                (Mode::Check { .. }, _) => {}
                (_, true) => held.push(bytes),
                (_, false) => out.write_all(&bytes)?,
            }
            Ok(())
        });
        match flowed {
            Ok(is_changed) => {
                held.iter().try_for_each(|bytes| out.write_all(bytes))?;
                Ok(Ok(is_changed))
            }
            Err((Stop::Unwritten(error), _)) => Err(error),
            Err((stop, line)) => Ok(Err(self.told(stop, line))),
        }
    }

    /// Changes the file, if it needs a change. On a fault it is as it was.
    fn replace(&self, policy: &Policy, how: InPlace) -> Result<bool, String> {
        let told = |error: io::Error| format!("{}: {error}", self.source);
        let (file, text) = self.open()?;
        interrupt::watch(1);
        let folders = Folders::default();
        let mut batch = Batch::new(how, &folders);
        let mut flowed = Ok(false);
        let prepared = batch.prepare_by(&self.source, &text, |out| {
            flowed = self.flow(Box::new(file), policy, &mut |bytes| out.write_all(&bytes));
            match flowed {
                Ok(_) => Ok(()),
                Err(_) => Err(io::ErrorKind::Other.into()),
            }
        });
        let is_changed = flowed.map_err(|(stop, line)| self.told(stop, line))?;
        prepared.map_err(told)?;
        if !is_changed {
            return Ok(false);
        }
        for result in batch.commit() {
            result.map_err(told)?;
        }
        folders.sync().into_iter().next().map_or(Ok(true), Err)
    }

    /// Opens the file, and again for what is kept of it.
    fn open(&self) -> Result<(File, Text), String> {
        let Source::File(path) = &self.source else {
            return Err(format!("{}: it is not a file", self.source));
        };
        let open = || -> io::Result<(File, Text)> {
            let file = File::open(path)?;
            let metadata = file.metadata()?;
            if metadata.is_dir() {
                return Err(io::Error::other("--parts takes one file, and no folder"));
            }
            let text = Text {
                bytes: Vec::new(),
                file: Some((file.try_clone()?, metadata)),
            };
            Ok((file, text))
        };
        open().map_err(|error| format!("{}: {error}", self.source))
    }

    /// Formats what is read, and hands it on part by part, in order. It says whether it differs; or why it stopped, after how
    /// many lines.
    fn flow(
        &self,
        input: Box<dyn Read + Send>,
        policy: &Policy,
        hand_on: &mut (dyn FnMut(Vec<u8>) -> io::Result<()> + Send),
    ) -> Result<bool, (Stop, usize)> {
        let threads = Threads::new(self.jobs).number();
        let mut cutter = Cutter::new(input);
        let (mut lines, mut is_changed, mut stopped) = (0, false, None);
        let work = |part: Result<Part, Fault>| formatted(part.map_err(Stop::Cutter)?, policy);
        in_order(
            threads,
            || cutter.next(),
            work,
            |done| {
                let written = done.and_then(|done| {
                    lines += done.lines;
                    is_changed |= done.is_changed;
                    hand_on(done.bytes).map_err(Stop::Unwritten)
                });
                stopped = written.err();
                stopped.is_none()
            },
        );
        match stopped {
            None if self.is_whole && cutter.length() > LONGEST_TEXT as u64 => {
                Err((Stop::Refused(Refusal::TextTooLong, 0), 0))
            }
            None => Ok(is_changed),
            Some(stop) => Err((stop, lines)),
        }
    }

    /// The message that the work stopped, after this many lines.
    fn told(&self, stop: Stop, lines: usize) -> String {
        let source = &self.source;
        match stop {
            Stop::Refused(refusal, more) => source.refused_in_line(refusal, lines + more + 1),
            Stop::Cutter(Fault::Unread(error)) | Stop::Unwritten(error) => {
                format!("{source}: {error}")
            }
            Stop::Cutter(Fault::NoCut(start)) => {
                let number = Refusal::TextTooLong.number();
                format!(
                    "{source}: refused {number}: no cut is allowed within 16,777,216 bytes from byte {start} on"
                )
            }
        }
    }
}

/// Formats a part.
fn formatted(part: Part, policy: &Policy) -> Result<Done, Stop> {
    let Part { start, bytes } = part;
    let new = match tilghorz::format(&bytes, policy) {
        Ok(Cow::Borrowed(_)) => None,
        Ok(Cow::Owned(new)) => Some(new),
        Err(Refusal::NotWellFormed { valid_up_to }) => {
            let lines = line_ends(&bytes[..valid_up_to]);
            let valid_up_to = start as usize + valid_up_to;
            return Err(Stop::Refused(Refusal::NotWellFormed { valid_up_to }, lines));
        }
        Err(refusal) => return Err(Stop::Refused(refusal, 0)),
    };
    let lines = line_ends(&bytes);
    Ok(Done {
        is_changed: new.is_some(),
        bytes: new.unwrap_or(bytes),
        lines,
    })
}

/// How many lines end in some bytes. Each stretch is counted in one byte, so that the compiler counts many bytes at once.
fn line_ends(bytes: &[u8]) -> usize {
    let in_stretch =
        |stretch: &[u8]| -> u8 { stretch.iter().map(|byte| u8::from(*byte == b'\n')).sum() };
    let stretches = bytes.chunks(usize::from(u8::MAX));
    stretches
        .map(|stretch| usize::from(in_stretch(stretch)))
        .sum()
}

#[cfg(test)]
mod tests {
    use super::line_ends;

    #[test]
    fn line_ends_are_counted() {
        for (bytes, number) in [(&b""[..], 0), (b"a\nb", 1), (b"\n", 1), (b"\n\na\n", 3)] {
            assert_eq!(line_ends(bytes), number);
        }
        for length in [254, 255, 256, 1000] {
            assert_eq!(line_ends(&vec![b'\n'; length]), length);
        }
    }
}
