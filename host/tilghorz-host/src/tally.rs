//! What became of each entry, and the summary of them all.

use std::fmt::{self, Display, Formatter};

use crate::console::Status;
use crate::intake::places;
use crate::walk::Why;

/// What became of an entry. Those up to `Binary` are of files that were read, or could not be.
#[derive(Debug, Clone, Copy, PartialEq, Eq)]
pub enum Outcome {
    /// A text has findings.
    Found,
    /// It has none.
    Clean,
    /// It was refused.
    Refused,
    /// It could not be read or written.
    Failed,
    /// It has a byte 00, and was passed over.
    Binary,
    /// Passed over: its name begins with a full stop.
    Hidden,
    /// Passed over: a symbolic link.
    Link,
    /// Passed over: no file, folder or link.
    Special,
    /// Passed over: a `.gitignore` ignores it.
    Ignored,
    /// Passed over: an `--exclude` matches it.
    Excluded,
    /// Passed over: no `--include` matches it.
    NotIncluded,
    /// A folder that could not be read.
    Unread,
    /// What a killed command has left, and was removed.
    LeftOver,
}

/// How many outcomes there are.
const OUTCOMES: usize = Outcome::LeftOver as usize + 1;

impl From<&Why> for Outcome {
    fn from(why: &Why) -> Self {
        match why {
            Why::Hidden => Self::Hidden,
            Why::Link => Self::Link,
            Why::Special => Self::Special,
            Why::Ignored(_) => Self::Ignored,
            Why::Excluded(_) => Self::Excluded,
            Why::NotIncluded => Self::NotIncluded,
        }
    }
}

/// How many entries had each outcome.
pub struct Tally {
    /// What is said of texts with findings, of those without, and of those that were repaired.
    words: [&'static str; 3],
    counts: [usize; OUTCOMES],
    /// How many files were repaired, and how many bad places they had.
    repaired: usize,
    replaced: usize,
    /// Whether folders could not be synced.
    is_unsynced: bool,
}

impl Tally {
    /// Nothing yet.
    pub fn new(words: [&'static str; 3]) -> Self {
        Self {
            words,
            counts: [0; OUTCOMES],
            repaired: 0,
            replaced: 0,
            is_unsynced: false,
        }
    }

    /// Counts an entry, in which `replaced` bad places were replaced. An entry that was not written is not counted as repaired.
    pub fn count(&mut self, outcome: Outcome, replaced: usize) {
        self.counts[outcome as usize] += 1;
        if replaced > 0 && matches!(outcome, Outcome::Found | Outcome::Clean) {
            self.repaired += 1;
            self.replaced += replaced;
        }
    }

    /// Notes that folders could not be synced.
    pub fn note_unsynced(&mut self) {
        self.is_unsynced = true;
    }

    /// How many files were read, or could not be.
    pub fn files(&self) -> usize {
        self.counts[..=Outcome::Binary as usize].iter().sum()
    }

    fn of(&self, outcome: Outcome) -> usize {
        self.counts[outcome as usize]
    }

    /// The status of them all, where this is the status of a text with findings.
    pub fn status(&self, found: Status) -> Status {
        let faults = [Outcome::Refused, Outcome::Failed, Outcome::Unread];
        if faults.into_iter().any(|fault| self.of(fault) > 0) || self.is_unsynced {
            Status::Fault
        } else if self.of(Outcome::Found) > 0 {
            found
        } else {
            Status::Good
        }
    }
}

impl Display for Tally {
    /// The numbers after the colon are all the files before it. How many of them were repaired follows, and what was passed
    /// over without a look into it.
    fn fmt(&self, out: &mut Formatter<'_>) -> fmt::Result {
        use Outcome::*;
        let number = |outcome, one, several| match self.of(outcome) {
            1 => format!("1 {one}"),
            number => format!("{number} {several}"),
        };
        let files = self.files();
        let file = |number| if number == 1 { "file" } else { "files" };
        let [found, clean, repaired] = self.words;
        let (found, clean) = (number(Found, found, found), number(Clean, clean, clean));
        write!(out, "{files} {}: {found}, {clean}", file(files))?;
        for (outcome, word) in [(Refused, "refused"), (Failed, "failed"), (Binary, "binary")] {
            if self.of(outcome) > 0 {
                write!(out, ", {}", number(outcome, word, word))?;
            }
        }
        if self.repaired > 0 {
            let (file, places) = (file(self.repaired), places(self.replaced));
            write!(out, "; {repaired}: {} {file}, {places}", self.repaired)?;
        }
        let passed_over = [
            (Hidden, "hidden", "hidden"),
            (Link, "symbolic link", "symbolic links"),
            (Special, "special file", "special files"),
            (Ignored, "ignored", "ignored"),
            (Excluded, "excluded", "excluded"),
            (NotIncluded, "not included", "not included"),
        ];
        let passed_over: Vec<String> = passed_over
            .into_iter()
            .filter(|(outcome, ..)| self.of(*outcome) > 0)
            .map(|(outcome, one, several)| number(outcome, one, several))
            .collect();
        if !passed_over.is_empty() {
            write!(out, "; passed over: {}", passed_over.join(", "))?;
        }
        for (outcome, one, several) in [
            (Unread, "folder not read", "folders not read"),
            (
                LeftOver,
                "left-over temporary file removed",
                "left-over temporary files removed",
            ),
        ] {
            if self.of(outcome) > 0 {
                write!(out, "; {}", number(outcome, one, several))?;
            }
        }
        Ok(())
    }
}
