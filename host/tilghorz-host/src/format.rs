//! `tilghorz-host format`.

use std::fs;
use std::io;

use tilghorz::{LONGEST_TEXT, Policy};

use crate::by_threads;
use crate::console::{Console, Status};
use crate::in_parts::InParts;
use crate::intake;
use crate::policy::PolicyFile;
use crate::rewriting::{Mode, Rewriting, Rewritten};
use crate::source::{Source, Text};
use crate::threads::Threads;

/// The command.
#[derive(Debug, PartialEq, Eq)]
pub struct Format {
    /// The policy.
    pub policy: PolicyFile,
    /// Whether bad places are replaced first.
    pub repairs: bool,
    /// The texts, and what is done with the formatted ones.
    pub rewriting: Rewriting,
}

impl Format {
    /// Formats the texts.
    pub fn run(&self, console: &mut Console) -> io::Result<Status> {
        if let Some(whole) = self.whole_file() {
            return whole.run(console);
        }
        let Some(policy) = self.policy.read_or_complain(console) else {
            return Ok(Status::Fault);
        };
        self.rewriting
            .run("format", console, |source, text, threads| {
                self.rewrite(source, text, &policy, threads)
            })
    }

    /// The command on one big file, if it is one: it is then read and formatted at the same time. A file that is changed in place
    /// is read first, since one that needs no change is not touched.
    fn whole_file(&self) -> Option<InParts> {
        /// A shorter file is not worth a second thread.
        const LEAST: u64 = 1 << 20;
        let Rewriting { mode, manner, .. } = self.rewriting;
        let [source @ Source::File(path)] = self.rewriting.names.as_slice() else {
            return None;
        };
        let metadata = fs::metadata(path).ok()?;
        let is_big = (LEAST..=LONGEST_TEXT as u64).contains(&metadata.len());
        let is_by_several = Threads::new(manner.jobs).number() > 1;
        let is_whole = metadata.is_file() && is_big && is_by_several;
        (is_whole && mode != Mode::InPlace && !self.repairs).then(|| InParts {
            policy: PolicyFile(self.policy.0.clone()),
            source: source.clone(),
            mode,
            jobs: manner.jobs,
            in_place: None,
            is_whole,
        })
    }

    /// Formats a text.
    fn rewrite<'t>(
        &self,
        source: &Source,
        text: &'t Text,
        policy: &Policy,
        threads: &Threads,
    ) -> Result<Rewritten<'t>, String> {
        let taken = intake::take_in(text, self.repairs);
        match by_threads::format(&taken.text, policy, threads) {
            Ok(stretches) => Ok(Rewritten { taken, stretches }),
            Err(refusal) => Err(intake::refused(source, refusal, &taken)),
        }
    }
}
