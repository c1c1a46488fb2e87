//! `tilghorz-host repair`.

use std::io;

use crate::console::{Console, Status};
use crate::rewriting::{Rewriting, Rewritten};
use crate::source::{Source, Text};
use crate::threads::Threads;

/// The command.
#[derive(Debug, PartialEq, Eq)]
pub struct Repair {
    /// The texts, and what is done with the repaired ones.
    pub rewriting: Rewriting,
}

impl Repair {
    /// Repairs the texts.
    pub fn run(&self, console: &mut Console) -> io::Result<Status> {
        self.rewriting.run("repair", console, rewrite)
    }
}

/// Repairs a text.
fn rewrite<'t>(source: &Source, text: &'t Text, _: &Threads) -> Result<Rewritten<'t>, String> {
    match tilghorz::repair(&text.bytes) {
        Ok(taken) => Ok(Rewritten {
            taken,
            stretches: None,
        }),
        Err(refusal) => Err(source.refused(refusal, &text.bytes)),
    }
}
