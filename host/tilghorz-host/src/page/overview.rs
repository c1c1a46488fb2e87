//! The front of the page: what was read with what, the texts that were refused, the sums, and the list of messages.

use std::io::{self, Write};

use tilghorz::{Context, Counts, Key, KeySet, Policy, Refusal, SingletonRule};

use crate::findings::reasons;
use crate::help;
use crate::page::html::{Number, Text, several};
use crate::page::message::Found;
use crate::page::{Collected, Row, State};
use crate::place::Positions;
use crate::policy::differences;
use crate::sha256;
use crate::tally::Tally;
use crate::tips;

/// How the page begins. Nothing may be loaded, from wherever it is, and no script runs.
const BEGINNING: &str = concat!(
    "<!DOCTYPE html>\n<html lang=en>\n<meta charset=utf-8>\n",
    "<meta name=generator content=tilghorz-host>\n",
    "<meta http-equiv=Content-Security-Policy content=\"default-src 'none'; style-src 'unsafe-inline'\">\n",
    "<meta name=viewport content=\"width=device-width\">\n<meta name=color-scheme content=\"light dark\">\n",
    "<title>Emoji selectors: findings</title>\n<style>\n",
    include_str!("style.css"),
    "</style>\n",
);

/// By these bytes a page is known.
pub const KNOWN_BY: &str = "<!DOCTYPE html>\n<html lang=en>\n<meta charset=utf-8>\n<meta name=generator content=tilghorz-host>\n";

/// How it ends.
pub const END: &str = "</main>\n</html>\n";

/// The most memberships that are listed.
const MOST_TIPS: usize = 20;
/// The bytes before and after a damaged place that are shown.
const AROUND: usize = 16;

/// A place where a text is not well-formed, with the bytes around it.
pub struct Damage {
    offset: usize,
    place: (usize, usize),
    before: Vec<u8>,
    bad: Vec<u8>,
    after: Vec<u8>,
}

impl Damage {
    /// The damage of a text that was refused, if that is the cause.
    pub fn of(text: &[u8], refusal: Refusal) -> Option<Self> {
        let Refusal::NotWellFormed {
            valid_up_to: offset,
        } = refusal
        else {
            return None;
        };
        let rest = text.get(offset..)?;
        // The first bad place; the rest of the text if it breaks off.
        let bad = rest
            .utf8_chunks()
            .next()
            .map_or(0, |chunk| chunk.invalid().len());
        let after = &rest[bad..];
        Some(Self {
            offset,
            place: Positions::new(text).of(offset),
            before: text[offset.saturating_sub(AROUND)..offset].to_vec(),
            bad: rest[..bad].to_vec(),
            after: after[..after.len().min(AROUND)].to_vec(),
        })
    }

    fn write(&self, out: &mut dyn Write) -> io::Result<()> {
        let (line, column) = self.place;
        let hex = |bytes: &[u8]| {
            let digits: Vec<String> = bytes.iter().map(|byte| format!("{byte:02X}")).collect();
            digits.join(" ")
        };
        let (before, bad, after) = (hex(&self.before), hex(&self.bad), hex(&self.after));
        write!(
            out,
            "<p>Line {line}, column {column}, byte {}: <code>{before} <mark>[{bad}]</mark> {after}</code>",
            self.offset
        )
    }
}

/// What the front of the page is made of.
pub struct Overview<'a> {
    /// What was collected from the texts.
    pub collected: &'a Collected,
    /// What became of them.
    pub tally: &'a Tally,
    /// The policy.
    pub policy: &'a Policy,
}

impl Overview<'_> {
    /// Writes the page up to the first message.
    pub fn write(&self, out: &mut dyn Write) -> io::Result<()> {
        write!(out, "{BEGINNING}")?;
        let tally = self.tally.to_string();
        writeln!(
            out,
            "<a class=skip href=#messages>To the messages</a>\n<header><h1>Emoji selectors: findings</h1>\n\
             <p>{}</header>\n<main>",
            Text(&tally)
        )?;
        self.write_refused(out)?;
        self.write_totals(out)?;
        self.write_tips(out)?;
        self.write_list(out)?;
        self.write_policy(out)?;
        writeln!(out, "<h2 id=messages tabindex=-1>Messages</h2>")
    }

    /// Writes the texts that were refused or could not be read.
    fn write_refused(&self, out: &mut dyn Write) -> io::Result<()> {
        let mut rows = self
            .rows(|row| !matches!(row.state, State::Read(_)))
            .peekable();
        if rows.peek().is_none() {
            return Ok(());
        }
        write!(out, "<section id=refused><h2>Refused</h2><ul>")?;
        for (number, row) in rows {
            let name = Text(&row.name);
            write!(out, "<li id=m{number}><bdi>{name}</bdi>: ")?;
            match &row.state {
                State::Refused(message, damage) => {
                    write!(out, "{}", Text(message))?;
                    if let Some(damage) = damage {
                        damage.write(out)?;
                    }
                }
                State::Unread(message) => write!(out, "not read: {}", Text(message))?,
                State::Read(_) => {}
            }
        }
        writeln!(out, "</ul></section>")
    }

    /// Writes the sums of the counts, and in how many files each is, as a table and as a chart.
    fn write_totals(&self, out: &mut dyn Write) -> io::Result<()> {
        let mut sums = Counts::default();
        let (mut findings, mut files) = (0, [0; 8]);
        for found in self.found() {
            sums += found.totals;
            findings += found.findings;
            for (file, count) in files.iter_mut().zip(found.totals.numbers()) {
                *file += usize::from(count > 0);
            }
        }
        write!(
            out,
            "<section id=totals><h2>Totals</h2><p>{}<table><thead><tr><th>Count<th>Total<th>Files<th>Meaning<tbody>",
            several(findings, "finding")
        )?;
        let rows = sums.named().zip(files).zip(reasons());
        for (((name, sum), files), (reason, example)) in rows {
            let (sum, files, reason) = (Number(sum), Number(files), Text(&reason));
            let example = Text(example);
            write!(
                out,
                "<tr><th scope=row>{name}<td class=n>{sum}<td class=n>{files}<td>{reason}: <bdi>{example}</bdi>"
            )?;
        }
        write!(out, "</table>")?;
        write_chart(&files, out)?;
        writeln!(out, "</section>")
    }

    /// Writes which memberships tip most messages.
    fn write_tips(&self, out: &mut dyn Write) -> io::Result<()> {
        let tips = tips::most_first(self.collected.tips.clone());
        if tips.is_empty() {
            return Ok(());
        }
        write!(
            out,
            "<section id=tips><h2>Memberships that decide messages</h2><p>The number says how many \
             formatted messages change if this membership of the policy is flipped, and nothing else.<table><thead><tr><th>Messages<th>Base\
             <th>Flip, as an option of policy write<tbody>"
        )?;
        for (tip, number) in tips.iter().take(MOST_TIPS) {
            let (number, flip) = (Number(*number), tips::flip(tip, self.policy));
            let base = tip.character.to_string();
            write!(
                out,
                "<tr><td class=n>{number}<td><bdi>{}</bdi><td><code>{flip}</code>",
                Text(&base)
            )?;
        }
        if tips.len() > MOST_TIPS {
            let more = several(tips.len() - MOST_TIPS, "more membership");
            write!(out, "<tr><td colspan=3>{more}")?;
        }
        writeln!(out, "</table></section>")
    }

    /// Writes the policy, what differs from the default one, and the versions.
    fn write_policy(&self, out: &mut dyn Write) -> io::Result<()> {
        let digest = sha256::digest(self.policy.as_bytes());
        write!(
            out,
            "<section id=policy><h2>Policy and versions</h2><table><tbody><tr><th scope=row>Tool<td>{}\
             <tr><th scope=row>Unicode<td>{}<tr><th scope=row>Kit<td>{}\
             <tr><th scope=row>Policy, SHA-256<td><code>{digest}</code>",
            Text(help::TOOL),
            tilghorz::version(),
            Text(tilghorz::KIT)
        )?;
        let sheet = self.policy.to_string();
        let mut lines = sheet.lines();
        for set in KeySet::ALL {
            for context in Context::ALL {
                let line = lines.next().unwrap_or_default().replace(',', ", ");
                let line = if line.is_empty() { "none" } else { &line };
                let (set, context) = (set.name(), context.name());
                write!(
                    out,
                    "<tr><th scope=row>{set} {context}<td><code>{}</code>",
                    Text(line)
                )?;
            }
        }
        write!(out, "</table>")?;
        self.write_differences(out)?;
        writeln!(out, "</section>")
    }

    /// Writes what differs from the default policy.
    fn write_differences(&self, out: &mut dyn Write) -> io::Result<()> {
        let default = Policy::default();
        let found: Vec<(Key, [SingletonRule; 2])> = differences(&default, self.policy).collect();
        if found.is_empty() {
            return write!(out, "<p>This is the default policy.");
        }
        let number = several(found.len(), "difference");
        write!(
            out,
            "<details><summary>{number} from the default policy</summary><table><thead><tr><th>Base<th>Context\
             <th>Default policy<th>This policy<tbody>"
        )?;
        for (key, rules) in found {
            let [default, own] = rules.map(rule);
            let base = key.character().to_string();
            let (code, context) = (u32::from(key.character()), key.context().name());
            write!(
                out,
                "<tr><th scope=row><bdi>{}</bdi> <code>{code:04X}</code><td>{context}<td>{default}<td>{own}",
                Text(&base)
            )?;
        }
        write!(out, "</table></details>")
    }

    /// Writes the list of messages: those with findings, and those without.
    fn write_list(&self, out: &mut dyn Write) -> io::Result<()> {
        // A longer list is folded at first.
        const SHORT: usize = 50;
        writeln!(
            out,
            "<nav id=list aria-label=Messages><h2>List of messages</h2>"
        )?;
        for (is_found, which) in [(true, "with findings"), (false, "without findings")] {
            let rows = self.rows(
                |row| matches!(row.state, State::Read(found) if (found.findings > 0) == is_found),
            );
            let rows: Vec<(usize, &Row)> = rows.collect();
            if rows.is_empty() {
                continue;
            }
            let open = if is_found && rows.len() <= SHORT {
                " open"
            } else {
                ""
            };
            let messages = several(rows.len(), "message");
            write!(
                out,
                "<details{open}><summary>{messages} {which}</summary><ol>"
            )?;
            for (number, row) in rows {
                write!(
                    out,
                    "<li><a href=#m{number}><bdi>{}</bdi></a>",
                    Text(&row.name)
                )?;
                if let State::Read(found) = row.state
                    && is_found
                {
                    write!(out, ", {}", several(found.findings, "finding"))?;
                }
            }
            writeln!(out, "</ol></details>")?;
        }
        writeln!(out, "</nav>")
    }

    /// The texts of a kind, in their order.
    fn rows(&self, is_meant: impl Fn(&Row) -> bool) -> impl Iterator<Item = (usize, &Row)> {
        let rows = self.collected.rows.iter();
        rows.map(|(number, row)| (*number, row))
            .filter(move |(_, row)| is_meant(row))
    }

    /// What was found in each text that was read.
    fn found(&self) -> impl Iterator<Item = Found> {
        self.collected
            .rows
            .values()
            .filter_map(|row| match row.state {
                State::Read(found) => Some(found),
                _ => None,
            })
    }
}

/// What a rule does, in words.
fn rule(rule: SingletonRule) -> &'static str {
    match rule {
        SingletonRule::BareToEmoji => "a base without a selector gets FE0F",
        SingletonRule::BareToText => "a base without a selector gets FE0E",
        SingletonRule::EmojiToBare => "FE0F is removed",
        SingletonRule::TextToBare => "FE0E is removed",
    }
}

/// Writes in how many files each count is, as bars.
fn write_chart(files: &[usize; 8], out: &mut dyn Write) -> io::Result<()> {
    const ROW: usize = 22;
    const WIDEST: usize = 300;
    let most = files.iter().copied().max().unwrap_or(0).max(1);
    let height = ROW * files.len();
    write!(
        out,
        "<figure><figcaption>Files in which each count occurs</figcaption>\
         <svg role=img aria-label=\"Files in which each count occurs\" viewBox=\"0 0 560 {height}\">"
    )?;
    for (index, (name, files)) in Counts::NAMES.into_iter().zip(files).enumerate() {
        let (top, width) = (ROW * index, files * WIDEST / most);
        let (text, number) = (top + 15, 170 + width);
        write!(
            out,
            "<text x=154 y={text} text-anchor=end>{name}</text>\
             <rect x=162 y={} width={width} height=14></rect><text x={number} y={text}>{}</text>",
            top + 4,
            Number(*files)
        )?;
    }
    write!(out, "</svg></figure>")
}
