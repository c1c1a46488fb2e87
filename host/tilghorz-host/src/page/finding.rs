//! What the page says of one finding: its place, why it is one, and what becomes of it.

use std::fmt::{self, Display, Formatter};
use std::io::{self, Write};
use std::sync::OnceLock;

use tilghorz::{Finding, Policy, Presentation};

use crate::findings::{self, reasons};
use crate::page::html::{CodePoints, Text, beginning, several};

/// The most choices that are listed of a finding.
const MOST_CHOICES: usize = 8;
/// The most bytes of a replacement that are shown.
const MOST_BYTES: usize = 400;

/// A finding that is described.
pub struct Described<'a> {
    /// Its anchor.
    pub anchor: String,
    /// Its number in the message.
    pub number: usize,
    /// It.
    pub finding: &'a Finding,
    /// Its line and column.
    pub place: (usize, usize),
    /// Its bytes.
    pub item: &'a str,
    /// The policy.
    pub policy: &'a Policy,
}

impl Described<'_> {
    /// Writes the description.
    pub fn write(&self, out: &mut dyn Write) -> io::Result<()> {
        let Finding {
            start,
            end,
            char_start,
            char_end,
            utf16_start,
            utf16_end,
            ..
        } = self.finding;
        let (anchor, number, (line, column)) = (&self.anchor, self.number, self.place);
        write!(
            out,
            "<div class=f id={anchor} data-bytes=\"{start} {end}\" data-utf16=\"{utf16_start} {utf16_end}\">\
             <p><a href=#{anchor}>Finding {number}</a> line {line}, column {column}; bytes {start} to {end}; \
             characters {char_start} to {char_end}; UTF-16 units {utf16_start} to {utf16_end}; <code>{}</code>",
            CodePoints(self.item)
        )?;
        self.write_reasons(out)?;
        let formatted = tilghorz::format_str(self.item, self.policy).unwrap_or_default();
        write!(out, "<p>Becomes {}", Shown(&formatted))?;
        if self.finding.counts.decisions > 0 {
            self.write_choices(out)?;
        }
        write!(out, "</div>")
    }

    /// Writes a line for each count that is not 0.
    fn write_reasons(&self, out: &mut dyn Write) -> io::Result<()> {
        static REASONS: OnceLock<[(String, &str); 8]> = OnceLock::new();
        let counts = self.finding.counts.named();
        for ((name, count), (reason, _)) in counts.zip(REASONS.get_or_init(reasons)) {
            if count > 0 {
                let (count, reason) = (findings::counted(name, count), Text(reason));
                write!(out, "<p><strong>{count}</strong>: {reason}")?;
            }
        }
        Ok(())
    }

    /// Writes the choices: what the finding becomes as text and as emoji, where the other choices are the policy's.
    fn write_choices(&self, out: &mut dyn Write) -> io::Result<()> {
        let item = self.item.as_bytes();
        // The bytes of a finding are an item of their own.
        let defaults = tilghorz::default_decisions(item, self.policy, 0).unwrap_or_default();
        write!(out, "<ul>")?;
        for (index, default) in defaults.iter().enumerate().take(MOST_CHOICES) {
            write!(out, "<li>Choice {}:", index + 1)?;
            for presentation in Presentation::ALL {
                let mut decisions = defaults.clone();
                decisions[index] = presentation;
                let mended = tilghorz::mend(item, self.policy, 0, &decisions);
                let mended = String::from_utf8(mended.unwrap_or_default()).unwrap_or_default();
                let or = if presentation == Presentation::Text {
                    ""
                } else {
                    "; or"
                };
                write!(out, "{or} as {presentation} {}", Shown(&mended))?;
                if presentation == *default {
                    write!(out, " (what the policy chooses)")?;
                }
            }
        }
        if defaults.len() > MOST_CHOICES {
            let more = several(defaults.len() - MOST_CHOICES, "more choice");
            write!(out, "<li>{more}")?;
        }
        write!(out, "</ul>")
    }
}

/// What a finding becomes: the text and its code points.
struct Shown<'a>(&'a str);

impl Display for Shown<'_> {
    fn fmt(&self, out: &mut Formatter<'_>) -> fmt::Result {
        if self.0.is_empty() {
            return out.write_str("nothing");
        }
        let shown = beginning(self.0, MOST_BYTES);
        write!(out, "<bdi>{}</bdi>", Text(shown))?;
        if shown.len() < self.0.len() {
            out.write_str("...")?;
        }
        write!(out, " <code>{}</code>", CodePoints(self.0))
    }
}
