//! `tilghorz-host report`.

use std::io::{self, Write};

use tilghorz::{Around, Finding, Item, ItemKind, Nearest, Policy, Refusal, Table};

use crate::console::{Console, Status};
use crate::findings;
use crate::intake::{self, Purpose};
use crate::json::{CountsObject, ErrorObject, FindingObject, Head, ItemObject};
use crate::place::{Place, Positions};
use crate::policy::PolicyFile;
use crate::sha256;
use crate::source::{Source, Text};
use crate::tally::Outcome;
use crate::walk::{Entries, Selection};
use crate::work::{self, Manner, Page, Work};

/// The command.
#[derive(Debug, PartialEq, Eq)]
pub struct Report {
    /// How it is written.
    pub form: Form,
    /// What is asked for.
    pub asked: Asked,
    /// Whether bad places are replaced first.
    pub repairs: bool,
    /// The policy.
    pub policy: PolicyFile,
    /// The texts.
    pub names: Vec<Source>,
    /// Which files of folders are taken.
    pub selection: Selection,
    /// How they are gone through.
    pub manner: Manner,
}

/// How a report is written.
#[derive(Debug, Clone, Copy, PartialEq, Eq)]
pub enum Form {
    /// Document 01's lines.
    Lines,
    /// A line for each finding, for editors.
    Short,
    /// A JSON object for each text.
    Json,
}

impl Form {
    /// The form of a name.
    pub fn of(name: &str) -> Result<Self, String> {
        match name {
            "lines" => Ok(Self::Lines),
            "short" => Ok(Self::Short),
            "json" => Ok(Self::Json),
            _ => Err(format!("--format {name}: neither lines, short nor json")),
        }
    }
}

/// What is asked of a text.
#[derive(Debug, PartialEq, Eq)]
pub enum Asked {
    /// All findings.
    Findings,
    /// All findings, and the items.
    Items,
    /// The finding nearest to a place.
    At(Place),
    /// The findings around a stretch: from a place up to another, or to the end of the text.
    Between(Place, Option<Place>),
}

/// What was found in a text.
enum Found {
    /// All findings, and the items if they are asked for.
    All(Table<Finding>, Option<Table<Item>>),
    /// The nearest finding, if there is one.
    At(Option<Nearest>),
    /// The findings around a stretch.
    Between(Around),
}

impl Found {
    /// Whether there is no finding.
    fn is_empty(&self) -> bool {
        match self {
            Self::All(findings, _) => findings.is_empty(),
            Self::At(nearest) => nearest.is_none(),
            Self::Between(around) => around.inside.is_empty() && around.sharing.is_empty(),
        }
    }
}

impl Report {
    /// Reports on the texts.
    pub fn run(&self, console: &mut Console) -> io::Result<Status> {
        let Some(policy) = self.policy.read_or_complain(console) else {
            return Ok(Status::Fault);
        };
        let entries = Entries::of(&self.names, &self.selection, false);
        console.keep_progress_off_terminal();
        let words = ["with findings", "without", "repaired"];
        let reporter = Reporter {
            report: self,
            policy: &policy,
            are_many: entries.are_many,
        };
        let tally = work::each(&entries, words, self.manner, console, reporter)?;
        Ok(tally.status(Status::Good))
    }

    /// Lists what is asked for.
    fn find(&self, text: &[u8], policy: &Policy) -> Result<Found, Refusal> {
        let offset = |place: &Place| place.offset(text).unwrap_or(text.len());
        Ok(match &self.asked {
            Asked::Findings => Found::All(tilghorz::findings(text, policy)?, None),
            Asked::Items => {
                let items = tilghorz::items(text)?;
                Found::All(tilghorz::findings(text, policy)?, Some(items))
            }
            Asked::At(place) => Found::At(tilghorz::nearest(text, policy, offset(place))?),
            Asked::Between(from, to) => {
                let end = to.as_ref().map_or(text.len(), offset);
                Found::Between(tilghorz::around(text, policy, offset(from)..end)?)
            }
        })
    }

    /// The first place that is asked for and that the text does not have.
    fn missing_place(&self, text: &[u8]) -> Option<Place> {
        let places = match self.asked {
            Asked::Findings | Asked::Items => [None, None],
            Asked::At(place) => [Some(place), None],
            Asked::Between(from, to) => [Some(from), to],
        };
        let mut places = places.into_iter().flatten();
        places.find(|place| place.offset(text).is_none())
    }
}

/// What reports on each text.
struct Reporter<'a> {
    report: &'a Report,
    policy: &'a Policy,
    are_many: bool,
}

impl Work for Reporter<'_> {
    fn text(&self, source: &Source, text: &Text, page: &mut Page<'_, '_>) -> io::Result<Outcome> {
        let taken = intake::take_in(text, self.report.repairs);
        let head = self.head(source, Some(text), taken.replaced);
        if let Some(place) = self.report.missing_place(&taken.text) {
            let message = format!("the text has no place {place}");
            page.complain(format!("{source}: {message}"));
            self.write_error(&head, &ErrorObject::NoPlace(&message), page)?;
            return Ok(Outcome::Refused);
        }
        let found = match self.report.find(&taken.text, self.policy) {
            Ok(found) => found,
            Err(refusal) => {
                page.complain(intake::refused(source, refusal, &taken));
                let place = match refusal {
                    Refusal::NotWellFormed { valid_up_to } => {
                        Some(Positions::new(&taken.text).of(valid_up_to))
                    }
                    _ => None,
                };
                self.write_error(&head, &ErrorObject::Refused(refusal, place), page)?;
                return Ok(Outcome::Refused);
            }
        };
        page.tell_replaced(source, text, taken.replaced, Purpose::Read);
        let located = Located {
            text: &taken.text,
            policy: self.policy,
        };
        match self.report.form {
            Form::Lines => {
                self.write_name(source, page.out)?;
                write_lines(&found, page.out)?;
            }
            Form::Short => located.write_short(source, &found, page.out)?,
            Form::Json => located.write_json(&head, &found, page.out)?,
        }
        Ok(if found.is_empty() {
            Outcome::Clean
        } else {
            Outcome::Found
        })
    }

    fn unread(&self, source: &Source, message: &str, page: &mut Page<'_, '_>) -> io::Result<()> {
        let head = self.head(source, None, 0);
        self.write_error(&head, &ErrorObject::Unread(message), page)
    }
}

impl Reporter<'_> {
    /// How the object of a text begins.
    fn head<'a>(&self, source: &'a Source, text: Option<&Text>, replaced: usize) -> Head<'a> {
        let text = text.filter(|text| {
            self.report.form == Form::Json && text.bytes.len() <= tilghorz::LONGEST_TEXT
        });
        Head {
            source,
            policy: sha256::digest(self.policy.as_bytes()),
            text: text.map(|text| sha256::digest(&text.bytes)),
            replaced: (text.is_some() && self.report.repairs).then_some(replaced),
        }
    }

    /// Writes the name of a text, where there are several.
    fn write_name(&self, source: &Source, out: &mut dyn Write) -> io::Result<()> {
        if self.are_many {
            writeln!(out, "==> {source} <==")?;
        }
        Ok(())
    }

    /// Writes why there are no findings of a text.
    fn write_error(
        &self,
        head: &Head<'_>,
        error: &ErrorObject<'_>,
        page: &mut Page<'_, '_>,
    ) -> io::Result<()> {
        let out = &mut *page.out;
        match (self.report.form, error) {
            (Form::Json, _) => writeln!(out, "{{{head},\"error\":{error}}}"),
            (Form::Short, ErrorObject::Refused(refusal, place)) => {
                let (line, column) = place.unwrap_or((1, 1));
                let (label, number) = (head.source.label(), refusal.number());
                writeln!(out, "{label}:{line}:{column}: refused {number}: {refusal}")
            }
            (Form::Short, ErrorObject::Unread(message) | ErrorObject::NoPlace(message)) => {
                writeln!(out, "{}:1:1: {message}", head.source.label())
            }
            (Form::Lines, ErrorObject::Refused(refusal, _)) => {
                self.write_name(head.source, out)?;
                let value = refusal.value();
                let value = value.map_or(String::new(), |value| format!(" {value}"));
                writeln!(out, "refused {}{value}", refusal.number())
            }
            (Form::Lines, ErrorObject::Unread(_) | ErrorObject::NoPlace(_)) => Ok(()),
        }
    }
}

/// The name of an item's kind.
pub fn kind_name(kind: ItemKind) -> &'static str {
    match kind {
        ItemKind::Passthrough => "passthrough",
        ItemKind::UnsanctionedSelectors => "unsanctioned-selectors",
        ItemKind::LinksOnly => "links-only",
        ItemKind::EmojiHeaded => "emoji-headed",
    }
}

/// Writes document 01's lines: the findings and the totals. Items, the nearest finding, or the findings around a stretch
/// stand in their place.
fn write_lines(found: &Found, out: &mut dyn Write) -> io::Result<()> {
    match found {
        Found::All(_, Some(items)) => items.iter().try_for_each(|item| {
            let tags = if item.tags_complete {
                "complete"
            } else {
                "incomplete"
            };
            writeln!(
                out,
                "{} {} {} {tags}",
                item.start,
                item.end,
                kind_name(item.kind)
            )
        }),
        Found::At(None) => writeln!(out, "none"),
        Found::At(Some(Nearest { finding, distance })) => {
            write!(out, "distance {distance}: ")?;
            write_finding(finding, out)
        }
        Found::Between(Around { inside, sharing }) => {
            for (name, findings) in [("inside", inside), ("sharing", sharing)] {
                for finding in findings.iter() {
                    write!(out, "{name} ")?;
                    write_finding(&finding, out)?;
                }
            }
            Ok(())
        }
        Found::All(findings, None) => {
            for finding in findings.iter() {
                write_finding(&finding, out)?;
            }
            write!(out, "total")?;
            write_numbers(&findings.totals().numbers(), out)
        }
    }
}

/// Writes the start, the end and the counts of a finding, and ends the line.
fn write_finding(finding: &Finding, out: &mut dyn Write) -> io::Result<()> {
    write!(out, "{} {}", finding.start, finding.end)?;
    write_numbers(&finding.counts.numbers(), out)
}

/// Writes numbers, each after a blank, and ends the line.
fn write_numbers(numbers: &[usize], out: &mut dyn Write) -> io::Result<()> {
    numbers
        .iter()
        .try_for_each(|number| write!(out, " {number}"))?;
    writeln!(out)
}

/// A text whose findings are written with their lines and columns, and with what becomes of them.
struct Located<'a> {
    text: &'a [u8],
    policy: &'a Policy,
}

impl Located<'_> {
    /// Writes a line for each finding: the file, the line, the column and a message.
    fn write_short(&self, source: &Source, found: &Found, out: &mut dyn Write) -> io::Result<()> {
        let mut positions = Positions::new(self.text);
        let label = source.label();
        let mut write = |finding: Finding| {
            let (line, column) = positions.of(finding.start);
            let what = findings::in_words(&finding.counts);
            let replacement = self.replacement(&finding);
            let becomes = findings::becomes(&replacement);
            writeln!(out, "{label}:{line}:{column}: {what}; {becomes}")
        };
        match found {
            Found::All(all, _) => all.iter().try_for_each(write),
            Found::At(nearest) => nearest
                .iter()
                .try_for_each(|nearest| write(nearest.finding.clone())),
            Found::Between(Around { inside, sharing }) => {
                inside.iter().chain(sharing.iter()).try_for_each(write)
            }
        }
    }

    /// Writes an object in a line.
    fn write_json(&self, head: &Head<'_>, found: &Found, out: &mut dyn Write) -> io::Result<()> {
        write!(out, "{{{head},\"bytes\":{}", self.text.len())?;
        match found {
            Found::At(None) => write!(out, ",\"nearest\":null")?,
            Found::At(Some(Nearest { finding, distance })) => {
                write!(out, ",\"nearest\":")?;
                self.write_object(finding, &mut Positions::new(self.text), out)?;
                write!(out, ",\"distance\":{distance}")?;
            }
            Found::Between(Around { inside, sharing }) => {
                self.write_findings("inside", inside, out)?;
                self.write_findings("sharing", sharing, out)?;
            }
            Found::All(findings, items) => {
                self.write_findings("findings", findings, out)?;
                write!(out, ",\"totals\":{}", CountsObject(&findings.totals()))?;
                if let Some(items) = items {
                    write!(out, ",\"items\":")?;
                    write_array(items.iter(), out, |item, out| {
                        write!(out, "{}", ItemObject(&item))
                    })?;
                }
            }
        }
        writeln!(out, "}}")
    }

    /// Writes a member with an array of findings.
    fn write_findings(
        &self,
        name: &str,
        findings: &Table<Finding>,
        out: &mut dyn Write,
    ) -> io::Result<()> {
        write!(out, ",\"{name}\":")?;
        let mut positions = Positions::new(self.text);
        write_array(findings.iter(), out, |finding, out| {
            self.write_object(&finding, &mut positions, out)
        })
    }

    /// Writes a finding as an object.
    fn write_object(
        &self,
        finding: &Finding,
        positions: &mut Positions<'_>,
        out: &mut dyn Write,
    ) -> io::Result<()> {
        let object = FindingObject {
            finding,
            place: positions.of(finding.start),
            replacement: &self.replacement(finding),
        };
        write!(out, "{object}")
    }

    /// What formatting makes of a finding.
    fn replacement(&self, finding: &Finding) -> String {
        findings::replacement(finding, self.text, self.policy).unwrap_or_default()
    }
}

/// Writes an array, each row by a function.
fn write_array<T>(
    rows: impl Iterator<Item = T>,
    out: &mut dyn Write,
    mut write_row: impl FnMut(T, &mut dyn Write) -> io::Result<()>,
) -> io::Result<()> {
    write!(out, "[")?;
    for (index, row) in rows.enumerate() {
        if index > 0 {
            write!(out, ",")?;
        }
        write_row(row, out)?;
    }
    write!(out, "]")
}
