//! `tilghorz-host page`: texts and their findings as one page of HTML, for whoever looks at messages.
//!
//! The texts are gone through once. What is written of each goes to a file for a while, and the front of the page, which is known
//! only at the end, is written before it.

mod finding;
mod html;
mod message;
mod output;
mod overview;

use std::collections::BTreeMap;
use std::io;
use std::str;
use std::sync::{Mutex, PoisonError};

use tilghorz::{Policy, Repaired};

use crate::console::{Console, Status};
use crate::findings::Findings;
use crate::intake::{self, Purpose};
use crate::interrupt;
use crate::policy::PolicyFile;
use crate::sha256;
use crate::source::{Source, Text};
use crate::tally::Outcome;
use crate::tips::Numbers;
use crate::walk::{Entries, Selection};
use crate::work::{self, Manner, Work};

use html::several;
use message::{Found, Message};
use output::Output;
use overview::{Damage, Overview};

/// The command.
#[derive(Debug, PartialEq, Eq)]
pub struct Page {
    /// Where the page goes.
    pub output: Source,
    /// How many findings of a text are described at most.
    pub most: usize,
    /// Whether bad places are replaced first.
    pub repairs: bool,
    /// The policy.
    pub policy: PolicyFile,
    /// The texts.
    pub names: Vec<Source>,
    /// Which files of folders are taken.
    pub selection: Selection,
    /// How they are gone through.
    pub manner: Manner,
}

/// What was collected from the texts, by their numbers.
#[derive(Default)]
pub struct Collected {
    rows: BTreeMap<usize, Row>,
    tips: Numbers,
}

/// A text.
struct Row {
    name: String,
    state: State,
}

/// What became of a text.
enum State {
    /// It was read.
    Read(Found),
    /// It was refused, with a message, and may be damaged.
    Refused(String, Option<Damage>),
    /// It could not be read.
    Unread(String),
}

impl Page {
    /// How many findings of a text are described if no number is given.
    pub const MOST: usize = 200;

    /// Writes the page.
    pub fn run(&self, console: &mut Console) -> io::Result<Status> {
        let Some(policy) = self.policy.read_or_complain(console) else {
            return Ok(Status::Fault);
        };
        let mut entries = Entries::of(&self.names, &self.selection, false);
        let output = match Output::new(&self.output, &mut entries) {
            Ok(output) => output,
            Err(error) => return Ok(self.complain(&error, console)),
        };
        // A signal takes the temporary files away.
        interrupt::watch(entries.list.len());
        let writer = Writer {
            page: self,
            policy: &policy,
            collected: Mutex::default(),
        };
        let words = ["with findings", "without", "repaired"];
        let done = output.sections().and_then(|sections| {
            console.writing_to(sections, |console| {
                work::each(&entries, words, self.manner, console, &writer)
            })
        });
        let tally = match done {
            Ok(tally) => tally,
            Err(error) => return Ok(self.complain(&error, console)),
        };
        let collected = writer.collected.into_inner();
        let overview = Overview {
            collected: &collected.unwrap_or_else(PoisonError::into_inner),
            tally: &tally,
            policy: &policy,
        };
        match output.write(&overview, console) {
            Ok(()) => Ok(tally.status(Status::Good)),
            Err(error) if self.output.is_input() => Err(error),
            Err(error) => Ok(self.complain(&error, console)),
        }
    }

    /// Says why there is no page.
    fn complain(&self, error: &io::Error, console: &mut Console) -> Status {
        console.complain(&format_args!("{}: {error}", self.output.label()));
        Status::Fault
    }
}

/// What writes the part of each text.
struct Writer<'a> {
    page: &'a Page,
    policy: &'a Policy,
    collected: Mutex<Collected>,
}

impl Work for &Writer<'_> {
    fn text(
        &self,
        source: &Source,
        text: &Text,
        page: &mut work::Page<'_, '_>,
    ) -> io::Result<Outcome> {
        let taken = intake::take_in(text, self.page.repairs);
        let found = Findings::of(&taken.text, self.policy);
        let tips = tilghorz::tips(&taken.text, self.policy);
        let (findings, tips) = match found.and_then(|found| Ok((found, tips?))) {
            Ok(found) => found,
            Err(refusal) => {
                let message = intake::refused(source, refusal, &taken);
                let damage = Damage::of(&taken.text, refusal);
                let told = format!("refused {}: {refusal}", refusal.number());
                self.collect(page.place, source, State::Refused(told, damage));
                page.complain(message);
                return Ok(Outcome::Refused);
            }
        };
        page.tell_replaced(source, text, taken.replaced, Purpose::Read);
        let found = self.write(source, text, &taken, findings, page)?;
        let mut collected = self
            .collected
            .lock()
            .unwrap_or_else(PoisonError::into_inner);
        for tip in tips.iter() {
            *collected.tips.entry(tip).or_default() += 1;
        }
        drop(collected);
        self.collect(page.place, source, State::Read(found));
        Ok(match found.findings {
            0 => Outcome::Clean,
            _ => Outcome::Found,
        })
    }

    fn unread(
        &self,
        source: &Source,
        message: &str,
        page: &mut work::Page<'_, '_>,
    ) -> io::Result<()> {
        self.collect(page.place, source, State::Unread(message.to_owned()));
        Ok(())
    }
}

impl Writer<'_> {
    /// Collects what became of the text at a place of the list.
    fn collect(&self, place: usize, source: &Source, state: State) {
        let name = source.to_string();
        let mut collected = self
            .collected
            .lock()
            .unwrap_or_else(PoisonError::into_inner);
        collected.rows.insert(place + 1, Row { name, state });
    }

    /// Writes the part of a text.
    fn write(
        &self,
        source: &Source,
        text: &Text,
        taken: &Repaired<'_>,
        findings: Findings<'_>,
        page: &mut work::Page<'_, '_>,
    ) -> io::Result<Found> {
        let number = page.place + 1;
        // A text that is not refused is UTF-8, and is formatted.
        let formatted = tilghorz::format(&taken.text, self.policy).unwrap_or_default();
        let (before, after) = (sha256::digest(&text.bytes), sha256::digest(&formatted));
        let name = source.to_string();
        let bytes = [text.bytes.len(), formatted.len()].map(|bytes| several(bytes, "byte"));
        writeln!(
            page.out,
            "<section class=m id=m{number}><h3><a href=#m{number}><bdi>{}</bdi></a></h3>\
             <p>Before: {}, SHA-256 <code>{before}</code><br>After: {}, SHA-256 <code>{after}</code>",
            html::Text(&name),
            bytes[0],
            bytes[1]
        )?;
        drop(formatted);
        if taken.replaced > 0 {
            let places = several(taken.replaced, "bad place");
            writeln!(
                page.out,
                "<p>{places} replaced by U+FFFD. All places are those of the repaired text."
            )?;
        }
        let message = Message {
            number,
            text: str::from_utf8(&taken.text).unwrap_or_default(),
            policy: self.policy,
            most: self.page.most,
        };
        let found = message.write_lines(findings, page.out)?;
        writeln!(page.out, "</section>")?;
        Ok(found)
    }
}
