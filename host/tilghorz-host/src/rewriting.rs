//! What the commands have in common that write texts anew: to standard output, into their files, or only the names of those
//! that would change.

use std::borrow::Cow;
use std::io;
use std::ops::Range;

use tilghorz::Repaired;

use crate::by_threads::Stretch;
use crate::console::{Console, Status};
use crate::diff;
use crate::intake::{self, Purpose};
use crate::source::{Source, Text};
use crate::tally::Outcome;
use crate::threads::Threads;
use crate::walk::{Entries, Selection};
use crate::work::{self, Manner, Page};

/// What is done with a new text.
#[derive(Debug, Clone, Copy, PartialEq, Eq)]
pub enum Mode {
    /// It is written to standard output.
    Write,
    /// Its file is named if it differs. After the name comes a line feed, or a byte 00.
    Check {
        /// A byte 00.
        null: bool,
    },
    /// What differs is written, with colours or without.
    Diff(bool),
    /// Its file is changed if it differs.
    InPlace,
}

/// The texts, and what is done with the new ones.
#[derive(Debug, PartialEq, Eq)]
pub struct Rewriting {
    /// What is done with the new texts.
    pub mode: Mode,
    /// The texts.
    pub names: Vec<Source>,
    /// Which files of folders are taken.
    pub selection: Selection,
    /// How they are gone through.
    pub manner: Manner,
}

/// A new text.
pub struct Rewritten<'t> {
    /// The text as it was taken in.
    pub taken: Repaired<'t>,
    /// What became of it after that, if something did.
    pub stretches: Option<Vec<Stretch>>,
}

impl Rewritten<'_> {
    /// Whether it differs from the text that was read.
    fn is_changed(&self) -> bool {
        self.stretches.is_some() || matches!(self.taken.text, Cow::Owned(_))
    }

    /// Its bytes, in pieces that follow each other.
    fn pieces(&self) -> Vec<&[u8]> {
        let text = &*self.taken.text;
        let piece = |stretch| match stretch {
            &Stretch::Same(Range { start, end }) => &text[start..end],
            Stretch::New(bytes) => bytes,
        };
        match &self.stretches {
            None => vec![text],
            Some(stretches) => stretches.iter().map(piece).collect(),
        }
    }
}

impl Rewriting {
    /// Rewrites the texts, for the command of this name, by a function, which may let free threads work. It makes the new text,
    /// or says why the text is refused.
    pub fn run(
        &self,
        name: &str,
        console: &mut Console,
        rewrite: impl for<'t> Fn(&Source, &'t Text, &Threads) -> Result<Rewritten<'t>, String> + Sync,
    ) -> io::Result<Status> {
        let is_folder = |name: &Source| matches!(name, Source::File(path) if path.is_dir());
        if self.mode == Mode::Write && (self.names.len() > 1 || self.names.iter().any(is_folder)) {
            console.complain(&format_args!(
                "{name}: several texts can only be given with --in-place, --check or --diff: standard output takes one text"
            ));
            return Ok(Status::Fault);
        }
        let entries = Entries::of(&self.names, &self.selection, self.mode == Mode::InPlace);
        let words = match self.mode {
            Mode::Check { .. } | Mode::Diff(_) => {
                ["would change", "would not", "would be repaired"]
            }
            _ => ["changed", "unchanged", "repaired"],
        };
        let one = |source: &Source, text: &Text, page: &mut Page<'_, '_>| {
            self.one(source, text, rewrite(source, text, page.threads), page)
        };
        let tally = work::each(&entries, words, self.manner, console, one)?;
        Ok(tally.status(match self.mode {
            Mode::Check { .. } | Mode::Diff(_) => Status::Different,
            _ => Status::Good,
        }))
    }

    /// Does with a new text what is asked.
    fn one(
        &self,
        source: &Source,
        text: &Text,
        rewritten: Result<Rewritten<'_>, String>,
        page: &mut Page<'_, '_>,
    ) -> io::Result<Outcome> {
        let new = match rewritten {
            Ok(new) => new,
            Err(refused) => {
                page.complain(refused);
                return Ok(Outcome::Refused);
            }
        };
        let replaced = new.taken.replaced;
        match (self.mode, new.is_changed()) {
            (Mode::Write, _) => {
                for piece in new.pieces() {
                    page.out.write_all(piece)?;
                }
            }
            (_, false) => {}
            (Mode::Check { null }, true) => {
                page.out.write_all(source.name())?;
                page.out.write_all(if null { b"\0" } else { b"\n" })?;
            }
            (Mode::Diff(is_coloured), true) => {
                let bytes = new.pieces().concat();
                diff::write(&source.label(), &text.bytes, &bytes, is_coloured, page.out)?;
            }
            (Mode::InPlace, true) => {
                let fault = intake::fault(text, replaced, self.selection.binary);
                let done = match fault {
                    Some(fault) => Err(fault),
                    None => page
                        .replace(source, text, &new.pieces())
                        .map_err(|error| error.to_string()),
                };
                if let Err(fault) = done {
                    page.complain(format!("{source}: {fault}"));
                    return Ok(Outcome::Failed);
                }
            }
        }
        page.tell_replaced(source, text, replaced, self.purpose());
        Ok(if new.is_changed() {
            Outcome::Found
        } else {
            Outcome::Clean
        })
    }

    /// What the texts are taken in for.
    const fn purpose(&self) -> Purpose {
        match self.mode {
            Mode::Check { .. } | Mode::Diff(_) => Purpose::Check,
            Mode::Write | Mode::InPlace => Purpose::Write,
        }
    }
}
