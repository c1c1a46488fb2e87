//! `tilghorz-host show`.

use std::io;
use std::str;

use tilghorz::Policy;

use crate::console::{Console, Status};
use crate::findings::Findings;
use crate::intake::{self, Purpose};
use crate::policy::PolicyFile;
use crate::source::{Source, Text};
use crate::tally::Outcome;
use crate::view::{COLOURED, Extent, PLAIN, Style, View};
use crate::walk::{Entries, Selection};
use crate::work::{self, Manner, Page};

/// The command.
#[derive(Debug, PartialEq, Eq)]
pub struct Show {
    /// Which lines are shown.
    pub extent: Extent,
    /// Whether they are coloured.
    pub is_coloured: bool,
    /// Whether bad places are replaced first.
    pub repairs: bool,
    /// The policy.
    pub policy: PolicyFile,
    /// The texts.
    pub names: Vec<Source>,
    /// Which files of folders are taken.
    pub selection: Selection,
    /// How they are gone through.
    pub manner: Manner,
}

impl Show {
    /// Shows the texts.
    pub fn run(&self, console: &mut Console) -> io::Result<Status> {
        let Some(policy) = self.policy.read_or_complain(console) else {
            return Ok(Status::Fault);
        };
        let entries = Entries::of(&self.names, &self.selection, false);
        console.keep_progress_off_terminal();
        let style = if self.is_coloured { &COLOURED } else { &PLAIN };
        let words = ["with findings", "without", "repaired"];
        let one = |source: &Source, text: &Text, page: &mut Page<'_, '_>| {
            self.one(source, text, &policy, style, entries.are_many, page)
        };
        let tally = work::each(&entries, words, self.manner, console, one)?;
        Ok(tally.status(Status::Good))
    }

    /// Shows a text.
    fn one(
        &self,
        source: &Source,
        text: &Text,
        policy: &Policy,
        style: &Style,
        are_many: bool,
        page: &mut Page<'_, '_>,
    ) -> io::Result<Outcome> {
        let taken = intake::take_in(text, self.repairs);
        let mut findings = match Findings::of(&taken.text, policy) {
            Ok(findings) => findings,
            Err(refusal) => {
                page.complain(intake::refused(source, refusal, &taken));
                return Ok(Outcome::Refused);
            }
        };
        page.tell_replaced(source, text, taken.replaced, Purpose::Read);
        let is_clean = findings.peek().is_none();
        if are_many && (!is_clean || self.extent == Extent::All) {
            writeln!(page.out, "==> {source} <==")?;
        }
        // A text that is not refused is UTF-8.
        let shown = str::from_utf8(&taken.text).unwrap_or_default();
        let mut view = View {
            text: shown,
            policy,
            style,
            out: page.out,
        };
        view.write(&mut findings, self.extent)?;
        Ok(if is_clean {
            Outcome::Clean
        } else {
            Outcome::Found
        })
    }
}
