//! The part of the page about one message: its lines before and after, and its findings.
//!
//! Its length is bounded: findings up to a number, of a long line the parts around the findings, and of lines without findings the
//! first ones.

use std::io::{self, Write};
use std::mem;
use std::ops::Range;

use tilghorz::{Counts, Finding, Policy};

use crate::findings::{self, Findings};
use crate::page::finding::Described;
use crate::page::html::{Number, Text, beginning, several};
use crate::place::Positions;
use crate::view::{Line, lines};

/// A line with more bytes than these is shown in parts.
const LONG: usize = 2000;
/// The bytes before and after a finding that a part of a long line has.
const AROUND: usize = 200;
/// The most bytes that are shown of a finding.
const LONGEST_FINDING: usize = 400;
/// The most bytes of lines without findings that are kept between two with findings.
const FOLDED: usize = 4096;

/// A message.
pub struct Message<'a> {
    /// Its number, which is part of its anchors.
    pub number: usize,
    /// Its text.
    pub text: &'a str,
    /// The policy.
    pub policy: &'a Policy,
    /// How many findings are described at most.
    pub most: usize,
}

/// What was found in a message.
#[derive(Clone, Copy, Default)]
pub struct Found {
    /// How many findings there are.
    pub findings: usize,
    /// The sums of their counts.
    pub totals: Counts,
}

impl Found {
    /// Counts a finding.
    fn count(&mut self, finding: &Finding) {
        self.findings += 1;
        self.totals += finding.counts;
    }
}

/// Lines without findings that follow each other.
#[derive(Default)]
struct Fold<'a> {
    first: usize,
    lines: usize,
    /// Those that are written, with the UTF-16 units before each.
    kept: Vec<(Line<'a>, usize)>,
    bytes: usize,
}

impl Message<'_> {
    /// Writes the lines of the message with their findings, and gives what was found.
    pub fn write_lines(
        &self,
        mut findings: Findings<'_>,
        out: &mut dyn Write,
    ) -> io::Result<Found> {
        if self.text.is_empty() {
            writeln!(out, "<p>The text is empty.")?;
            return Ok(Found::default());
        }
        let (mut found, mut units) = (Found::default(), 0);
        let mut places = Positions::new(self.text.as_bytes());
        let mut fold = Fold::default();
        let mut last = 0;
        write!(
            out,
            "<table class=m><thead><tr><th>Line<th>Before<th>After<tbody>"
        )?;
        for line in lines(self.text) {
            let mut here = Vec::new();
            while found.findings < self.most
                && let Some(finding) = findings.next_before(line.end)
            {
                found.count(&finding);
                here.push(finding);
            }
            // The first finding of the line that is not described, after which nothing is shown.
            let next = findings.peek().map(|finding| finding.start);
            let next = next.filter(|next| *next < line.end);
            if !here.is_empty() {
                mem::take(&mut fold).write(out)?;
                let until = next.map_or(line.shown.len(), |next| next - line.start);
                let here = Here {
                    line: &line,
                    findings: &here,
                    first: found.findings - here.len() + 1,
                };
                self.write_line(&here, units, until, out)?;
                self.write_findings(&here, &mut places, out)?;
            } else if next.is_none() {
                fold.add(line.clone(), units);
            }
            last = line.number;
            if next.is_some() {
                break;
            }
            units += utf16_length(&self.text[line.start..line.end]);
        }
        fold.write(out)?;
        let described = found.findings;
        findings.for_each(|finding| found.count(&finding));
        if found.findings > described {
            let more = several(found.findings - described, "more finding");
            write!(
                out,
                "<tr class=k><td colspan=3>{more}, from line {} on, not shown",
                Number(last)
            )?;
        }
        writeln!(out, "</table>")?;
        Ok(found)
    }

    /// Writes a line before and after, up to an offset in it.
    fn write_line(
        &self,
        here: &Here<'_>,
        units: usize,
        until: usize,
        out: &mut dyn Write,
    ) -> io::Result<()> {
        let parts = here.parts(until);
        let line = here.line;
        write!(out, "<tr><th scope=row>{}", Number(line.number))?;
        for is_after in [false, true] {
            let class = if is_after { "a" } else { "b" };
            write!(out, "<td class={class}>")?;
            let (mut shown, mut units) = (0, units);
            for (part, inside) in &parts {
                write_gap(part.start - shown, out)?;
                units += utf16_length(&line.shown[shown..part.start]);
                let side = Side {
                    message: self,
                    here,
                    is_after,
                };
                side.write(part.clone(), units, inside.clone(), out)?;
                units += utf16_length(&line.shown[part.clone()]);
                shown = part.end;
            }
            write_gap(line.shown.len() - shown, out)?;
        }
        Ok(())
    }

    /// Writes what there is to say of the findings of a line.
    fn write_findings(
        &self,
        here: &Here<'_>,
        places: &mut Positions<'_>,
        out: &mut dyn Write,
    ) -> io::Result<()> {
        write!(out, "<tr class=d><td><td colspan=2>")?;
        for (finding, number) in here.findings.iter().zip(here.first..) {
            let described = Described {
                anchor: self.anchor(number),
                number,
                finding,
                place: places.of(finding.start),
                item: &self.text[finding.span()],
                policy: self.policy,
            };
            described.write(out)?;
        }
        Ok(())
    }

    /// The anchor of a finding.
    fn anchor(&self, finding: usize) -> String {
        format!("m{}f{finding}", self.number)
    }
}

/// A line with its findings.
struct Here<'a> {
    line: &'a Line<'a>,
    findings: &'a [Finding],
    /// The number of the first of them.
    first: usize,
}

/// One side of a line: as it is, or as it becomes.
struct Side<'a> {
    message: &'a Message<'a>,
    here: &'a Here<'a>,
    is_after: bool,
}

impl Side<'_> {
    /// Writes a part of the line, before which there are some UTF-16 units of the message, with the findings in it.
    fn write(
        &self,
        part: Range<usize>,
        units: usize,
        inside: Range<usize>,
        out: &mut dyn Write,
    ) -> io::Result<()> {
        let (line, mut at) = (self.here.line, part.start);
        self.begin(units, out)?;
        for index in inside {
            let finding = &self.here.findings[index];
            let start = finding.start - line.start;
            write!(out, "{}", Text(&line.shown[at..start]))?;
            self.write_finding(finding, self.here.first + index, out)?;
            at = finding.end - line.start;
        }
        write!(out, "{}</bdi>", Text(&line.shown[at..part.end]))
    }

    /// Begins a stretch of text. Before the message is formatted it has its place, in UTF-16 units.
    fn begin(&self, units: usize, out: &mut dyn Write) -> io::Result<()> {
        match self.is_after {
            true => write!(out, "<bdi>"),
            false => write!(out, "<bdi data-u={units}>"),
        }
    }

    /// Writes a finding, marked, as a link to what there is to say of it.
    fn write_finding(
        &self,
        finding: &Finding,
        number: usize,
        out: &mut dyn Write,
    ) -> io::Result<()> {
        let message = self.message;
        let text = message.text;
        let becomes = self
            .is_after
            .then(|| findings::replacement(finding, text.as_bytes(), message.policy))
            .flatten();
        let whole = match &becomes {
            Some(becomes) => becomes.as_str(),
            None => &text[finding.span()],
        };
        let shown = beginning(whole, LONGEST_FINDING);
        let class = if self.is_after { "r" } else { "f" };
        let (anchor, shown_text) = (message.anchor(number), Text(shown));
        write!(
            out,
            "<a class={class} data-n={number} href=#{anchor}>{shown_text}</a>"
        )?;
        if shown.len() < whole.len() {
            write!(out, "</bdi>")?;
            write_gap(whole.len() - shown.len(), out)?;
            self.begin(finding.utf16_end, out)?;
        }
        Ok(())
    }
}

impl<'a> Fold<'a> {
    /// Adds a line, before which there are some UTF-16 units.
    fn add(&mut self, line: Line<'a>, units: usize) {
        if self.lines == 0 {
            self.first = line.number;
        }
        self.lines += 1;
        if self.bytes < FOLDED {
            self.bytes += line.shown.len() + 1;
            self.kept.push((line, units));
        }
    }

    /// Writes the lines, folded.
    fn write(self, out: &mut dyn Write) -> io::Result<()> {
        if self.lines == 0 {
            return Ok(());
        }
        let (first, last) = (Number(self.first), Number(self.first + self.lines - 1));
        let which = match self.lines {
            1 => format!("Line {first} without a finding"),
            _ => format!("Lines {first} to {last} without a finding"),
        };
        write!(
            out,
            "<tr class=k><td colspan=3><details><summary>{which}</summary>"
        )?;
        for (line, units) in &self.kept {
            let shown = beginning(line.shown, LONG);
            let number = line.number;
            write!(
                out,
                "<div data-l={number}><bdi data-u={units}>{}</bdi>",
                Text(shown)
            )?;
            write_gap(line.shown.len() - shown.len(), out)?;
            write!(out, "</div>")?;
        }
        if self.lines > self.kept.len() {
            write!(
                out,
                "<p>{}",
                several(self.lines - self.kept.len(), "more line")
            )?;
        }
        write!(out, "</details>")
    }
}

impl Here<'_> {
    /// The parts of the line that are shown, up to an offset in it, each with the places of its findings in the list.
    fn parts(&self, until: usize) -> Vec<(Range<usize>, Range<usize>)> {
        let (line, findings) = (self.line, self.findings);
        if line.shown.len() <= LONG {
            return vec![(0..until, 0..findings.len())];
        }
        let bytes = line.shown.as_bytes();
        let cut = |offset: usize| tilghorz::cut(bytes, offset.min(until)).unwrap_or(0);
        let mut parts: Vec<(Range<usize>, Range<usize>)> = Vec::new();
        for (index, finding) in findings.iter().enumerate() {
            let (start, end) = (finding.start - line.start, finding.end - line.start);
            let after = cut(end + AROUND).max(end);
            match parts.last_mut() {
                Some((part, inside)) if start < part.end + AROUND => {
                    (part.end, inside.end) = (after, index + 1);
                }
                last => {
                    let shown = last.map_or(0, |(part, _)| part.end);
                    let start = cut(start.saturating_sub(AROUND)).max(shown);
                    parts.push((start..after, index..index + 1));
                }
            }
        }
        parts
    }
}

/// Writes that some bytes are left out, if there are any.
fn write_gap(bytes: usize, out: &mut dyn Write) -> io::Result<()> {
    if bytes == 0 {
        return Ok(());
    }
    write!(out, " <i>[{}]</i> ", several(bytes, "more byte"))
}

/// How many UTF-16 units a text has.
fn utf16_length(text: &str) -> usize {
    text.chars().map(char::len_utf16).sum()
}
