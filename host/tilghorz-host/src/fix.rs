//! `tilghorz-host fix`.

use std::cmp::Reverse;
use std::io::{self, Write};

use tilghorz::{Nearest, Policy, Presentation, Refusal, Repaired};

use crate::console::{Console, Status};
use crate::intake::{self, Purpose};
use crate::interrupt;
use crate::place::{Place, Positions};
use crate::policy::PolicyFile;
use crate::replace::{Batch, Folders, InPlace};
use crate::source::{Source, Text};

/// The command.
#[derive(Debug, PartialEq, Eq)]
pub struct Fix {
    /// The findings that are mended.
    pub choices: Vec<Choice>,
    /// Whether bad places are replaced first.
    pub repairs: bool,
    /// Whether a binary file may be changed.
    pub binary: bool,
    /// How the file is changed, if it is.
    pub in_place: Option<InPlace>,
    /// The policy.
    pub policy: PolicyFile,
    /// The text.
    pub source: Source,
}

/// A finding that is mended.
#[derive(Debug, PartialEq, Eq)]
pub struct Choice {
    /// Where it starts.
    pub at: Place,
    /// The decisions. Nothing is what the policy decides.
    pub decisions: Vec<Option<Presentation>>,
}

impl Fix {
    /// Mends the findings.
    pub fn run(&self, console: &mut Console) -> io::Result<Status> {
        let Some(policy) = self.policy.read_or_complain(console) else {
            return Ok(Status::Fault);
        };
        let text = match self.source.read() {
            Ok(text) => text,
            Err(error) => {
                console.complain(&format_args!("{}: {error}", self.source));
                return Ok(Status::Fault);
            }
        };
        let taken = intake::take_in(&text, self.repairs);
        let replaced = taken.replaced;
        if replaced > 0 {
            console.complain(&intake::told(&self.source, &text, replaced, Purpose::Read));
        }
        let Some(mended) = self.mend(&taken, &policy, console) else {
            return Ok(Status::Fault);
        };
        let Some(how) = self.in_place else {
            console.out.write_all(&mended)?;
            return Ok(Status::Good);
        };
        let fault = intake::fault(&text, replaced, self.binary);
        let fault = fault.map(|fault| format!("{}: {fault}", self.source));
        if let Some(fault) = fault.or_else(|| self.replace(&text, &mended, how).err()) {
            console.complain(&fault);
            return Ok(Status::Fault);
        }
        Ok(Status::Good)
    }

    /// Mends the findings in a text. Places count in the text as it was, so the last finding is mended first: that moves no
    /// other one. If one cannot be mended, it is told, and none is.
    fn mend(
        &self,
        taken: &Repaired<'_>,
        policy: &Policy,
        console: &mut Console,
    ) -> Option<Vec<u8>> {
        let text = &*taken.text;
        let mut choices = Vec::new();
        for choice in &self.choices {
            let Some(offset) = choice.at.offset(text) else {
                let (source, at) = (&self.source, choice.at);
                console.complain(&format_args!("{source}: the text has no place {at}"));
                return None;
            };
            if choices.iter().any(|(before, _)| *before == offset) {
                console.complain(&format_args!("fix: --at {}: given twice", choice.at));
                return None;
            }
            choices.push((offset, choice));
        }
        choices.sort_by_key(|(offset, _)| Reverse(*offset));
        let mut mended = text.to_vec();
        for (offset, choice) in choices {
            match mend_one(&mended, policy, offset, &choice.decisions) {
                Ok(text) => mended = text,
                Err(refusal) => {
                    console.complain(&self.refused(choice.at, refusal, taken));
                    let nearest = tilghorz::nearest(text, policy, offset);
                    advise(choice.at, refusal, nearest.ok().flatten(), text, console);
                    return None;
                }
            }
        }
        Some(mended)
    }

    /// The message of a refusal. It names the place, if there are several.
    fn refused(&self, at: Place, refusal: Refusal, taken: &Repaired<'_>) -> String {
        let message = intake::refused(&self.source, refusal, taken);
        match (refusal, self.choices.len()) {
            (Refusal::NoFinding | Refusal::WrongNumberOfDecisions { .. }, 2..) => {
                format!("{message} (--at {at})")
            }
            _ => message,
        }
    }

    /// Changes the file.
    fn replace(&self, text: &Text, mended: &[u8], how: InPlace) -> Result<(), String> {
        let told = |error: io::Error| format!("{}: {error}", self.source);
        interrupt::watch(1);
        let folders = Folders::default();
        let mut batch = Batch::new(how, &folders);
        batch.prepare(&self.source, text, mended).map_err(told)?;
        for result in batch.commit() {
            result.map_err(told)?;
        }
        folders.sync().into_iter().next().map_or(Ok(()), Err)
    }
}

/// Mends one finding.
fn mend_one(
    text: &[u8],
    policy: &Policy,
    offset: usize,
    decisions: &[Option<Presentation>],
) -> Result<Vec<u8>, Refusal> {
    let given: Option<Vec<Presentation>> = decisions.iter().copied().collect();
    if let Some(given) = given {
        return tilghorz::mend(text, policy, offset, &given);
    }
    // The refusal of a call without decisions has their number.
    let wanted = match tilghorz::mend(text, policy, offset, &[]) {
        Err(Refusal::WrongNumberOfDecisions { wanted }) => wanted,
        Err(refusal) => return Err(refusal),
        Ok(_) => 0,
    };
    let decisions = match decisions {
        [None] => &vec![None; wanted],
        _ if decisions.len() != wanted => return Err(Refusal::WrongNumberOfDecisions { wanted }),
        _ => decisions,
    };
    let defaults = defaults(text, policy, offset, wanted)?;
    let all = decisions.iter().zip(defaults);
    let all: Vec<Presentation> = all
        .map(|(given, default)| given.unwrap_or(default))
        .collect();
    tilghorz::mend(text, policy, offset, &all)
}

/// What the policy decides for each decision of a finding. The finding mended with only text and with only emoji differs
/// exactly in the selectors of its decisions, and there the formatted finding has what the policy decides.
fn defaults(
    text: &[u8],
    policy: &Policy,
    offset: usize,
    wanted: usize,
) -> Result<Vec<Presentation>, Refusal> {
    let nearest = tilghorz::nearest(text, policy, offset)?;
    let finding = nearest.ok_or(Refusal::NoFinding)?.finding;
    let finding = text.get(finding.span()).unwrap_or_default();
    let mended = |decision| tilghorz::mend(finding, policy, 0, &vec![decision; wanted]);
    let (as_text, as_emoji) = (mended(Presentation::Text)?, mended(Presentation::Emoji)?);
    let formatted = tilghorz::format(finding, policy)?;
    let bytes = as_text.iter().zip(&as_emoji).zip(&*formatted);
    let differing = bytes.filter(|((text, emoji), _)| text != emoji);
    let decided = differing.map(|((text, _), formatted)| match text == formatted {
        true => Presentation::Text,
        false => Presentation::Emoji,
    });
    Ok(decided.collect())
}

/// Says what to do about a refusal. The nearest finding is that of the text, if it has one.
fn advise(
    at: Place,
    refusal: Refusal,
    nearest: Option<Nearest>,
    text: &[u8],
    console: &mut Console,
) {
    match (refusal, nearest) {
        (Refusal::NoFinding, Some(Nearest { finding, .. })) => {
            let (start, end) = (finding.start, finding.end);
            let (line, column) = Positions::new(text).of(start);
            let place = match at {
                Place::Byte(_) => Place::Byte(start),
                Place::Line(..) => Place::Line(line, column),
            };
            console.say(&format_args!(
                "the nearest finding is from byte {start} to {end}; try: --at {place}"
            ));
        }
        (Refusal::NoFinding, None) => console.say(&"the text has no finding"),
        (Refusal::WrongNumberOfDecisions { wanted: 0 }, _) => {
            console.say(&"the finding has no decision; try it without --decide");
        }
        (Refusal::WrongNumberOfDecisions { wanted }, _) => {
            let decisions = vec!["text"; wanted.min(3)].join(",");
            let more = if wanted > 3 { ",.." } else { "" };
            console.say(&format_args!(
                "try: --decide {decisions}{more}, with text, emoji or default for each; or --decide default for all"
            ));
        }
        _ => {}
    }
}
