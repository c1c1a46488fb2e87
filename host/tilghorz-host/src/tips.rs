//! `tilghorz-host policy tips`: which single membership of a policy decides texts (document 02, viii).

use std::cmp::Reverse;
use std::collections::BTreeMap;
use std::io::{self, Write};
use std::sync::{Mutex, PoisonError};

use tilghorz::{Policy, Tip};

use crate::console::{Console, Status};
use crate::intake::{self, Purpose};
use crate::json::TipObject;
use crate::policy::PolicyFile;
use crate::source::{Source, Text};
use crate::tally::Outcome;
use crate::walk::{Entries, Selection};
use crate::work::{self, Manner, Page};

/// The command.
#[derive(Debug, PartialEq, Eq)]
pub struct Tips {
    /// Whether the list is written in JSON.
    pub json: bool,
    /// Whether bad places are replaced first.
    pub repairs: bool,
    /// The policy.
    pub policy: PolicyFile,
    /// The texts.
    pub names: Vec<Source>,
    /// Which files of folders are taken.
    pub selection: Selection,
    /// How they are gone through.
    pub manner: Manner,
}

/// In how many texts each membership decides something.
pub type Numbers = BTreeMap<Tip, usize>;

impl Tips {
    /// Counts, over the texts, in how many each membership decides something, and writes the numbers.
    pub fn run(&self, console: &mut Console) -> io::Result<Status> {
        let Some(policy) = self.policy.read_or_complain(console) else {
            return Ok(Status::Fault);
        };
        let entries = Entries::of(&self.names, &self.selection, false);
        let numbers = Mutex::new(Numbers::new());
        let words = ["that a flip alters", "that none alters", "repaired"];
        let one = |source: &Source, text: &Text, page: &mut Page<'_, '_>| {
            Ok(self.one(source, text, &policy, &numbers, page))
        };
        let tally = work::each(&entries, words, self.manner, console, one)?;
        let numbers = numbers.into_inner().unwrap_or_else(PoisonError::into_inner);
        let most_first = most_first(numbers);
        if self.json {
            write_json(&most_first, &policy, &mut console.out)?;
        } else {
            write_lines(&most_first, &policy, &mut console.out)?;
        }
        Ok(tally.status(Status::Good))
    }

    /// Counts one text.
    fn one(
        &self,
        source: &Source,
        text: &Text,
        policy: &Policy,
        numbers: &Mutex<Numbers>,
        page: &mut Page<'_, '_>,
    ) -> Outcome {
        let taken = intake::take_in(text, self.repairs);
        let tips = match tilghorz::tips(&taken.text, policy) {
            Ok(tips) => tips,
            Err(refusal) => {
                page.complain(intake::refused(source, refusal, &taken));
                return Outcome::Refused;
            }
        };
        page.tell_replaced(source, text, taken.replaced, Purpose::Read);
        let mut numbers = numbers.lock().unwrap_or_else(PoisonError::into_inner);
        for tip in tips.iter() {
            *numbers.entry(tip).or_default() += 1;
        }
        if tips.is_empty() {
            Outcome::Clean
        } else {
            Outcome::Found
        }
    }
}

/// The memberships that decide most texts first. Those with equal numbers are in document 02's order.
pub fn most_first(numbers: Numbers) -> Vec<(Tip, usize)> {
    let mut sorted: Vec<(Tip, usize)> = numbers.into_iter().collect();
    sorted.sort_by_key(|(tip, number)| (Reverse(*number), *tip));
    sorted
}

/// Whether the policy has the membership. A flip takes it out then, and adds it otherwise.
fn is_held(tip: &Tip, policy: &Policy) -> bool {
    policy.contains(tip.set, tip.character, tip.context)
}

/// Writes a line for each membership: in how many texts, and the flip as an option of `policy write`.
fn write_lines(tips: &[(Tip, usize)], policy: &Policy, out: &mut impl Write) -> io::Result<()> {
    for (tip, number) in tips {
        writeln!(out, "{number} {}", flip(tip, policy))?;
    }
    Ok(())
}

/// The flip of a membership, as an option of `policy write`.
pub fn flip(tip: &Tip, policy: &Policy) -> String {
    let option = if is_held(tip, policy) {
        "--take"
    } else {
        "--add"
    };
    let (set, context) = (tip.set.name(), tip.context.name());
    format!("{option} {set} {context} {:04X}", u32::from(tip.character))
}

/// Writes the list as a JSON array on one line.
fn write_json(tips: &[(Tip, usize)], policy: &Policy, out: &mut impl Write) -> io::Result<()> {
    let objects: Vec<String> = tips
        .iter()
        .map(|(tip, texts)| {
            let is_held = is_held(tip, policy);
            let object = TipObject {
                tip,
                is_held,
                texts: *texts,
            };
            object.to_string()
        })
        .collect();
    writeln!(out, "[{}]", objects.join(","))
}
