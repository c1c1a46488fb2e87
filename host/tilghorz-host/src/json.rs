//! The little of JSON that a report needs.

use std::fmt::{self, Display, Formatter, Write};
use std::str;

use tilghorz::{Counts, Finding, Item, Refusal, Tip};

use crate::help;
use crate::report::kind_name;
use crate::sha256::Digest;
use crate::source::Source;

/// A text in quotes.
pub struct Quoted<'a>(pub &'a str);

impl Display for Quoted<'_> {
    fn fmt(&self, out: &mut Formatter<'_>) -> fmt::Result {
        out.write_char('"')?;
        for character in self.0.chars() {
            match character {
                '"' | '\\' => write!(out, "\\{character}")?,
                '\u{0}'..'\u{20}' | '\u{7F}' => write!(out, "\\u{:04X}", u32::from(character))?,
                _ => out.write_char(character)?,
            }
        }
        out.write_char('"')
    }
}

/// How the object of a text begins: the file, and with what it was read.
pub struct Head<'a> {
    /// Where the text comes from.
    pub source: &'a Source,
    /// The digest of the policy.
    pub policy: Digest,
    /// The digest of the text as it was read, if it was read whole.
    pub text: Option<Digest>,
    /// How many bad places were replaced, if that was asked for.
    pub replaced: Option<usize>,
}

impl Display for Head<'_> {
    fn fmt(&self, out: &mut Formatter<'_>) -> fmt::Result {
        let name = self.source.name();
        write!(out, "\"file\":{}", Quoted(&String::from_utf8_lossy(name)))?;
        if str::from_utf8(name).is_err() {
            write!(out, ",\"file_hex\":\"")?;
            name.iter().try_for_each(|byte| write!(out, "{byte:02x}"))?;
            write!(out, "\"")?;
        }
        let (tool, unicode) = (help::TOOL, tilghorz::version());
        write!(out, ",\"tool\":\"{tool}\",\"unicode\":\"{unicode}\"")?;
        write!(out, ",\"policy_sha256\":\"{}\"", self.policy)?;
        if let Some(text) = self.text {
            write!(out, ",\"text_sha256\":\"{text}\"")?;
        }
        if let Some(replaced) = self.replaced {
            write!(out, ",\"replaced\":{replaced}")?;
        }
        Ok(())
    }
}

/// A finding as an object.
pub struct FindingObject<'a> {
    /// The finding.
    pub finding: &'a Finding,
    /// The line and the column of its start.
    pub place: (usize, usize),
    /// What formatting makes of it.
    pub replacement: &'a str,
}

impl Display for FindingObject<'_> {
    fn fmt(&self, out: &mut Formatter<'_>) -> fmt::Result {
        let Finding {
            start,
            end,
            counts,
            char_start,
            char_end,
            utf16_start,
            utf16_end,
            ..
        } = self.finding;
        let (line, column) = self.place;
        write!(
            out,
            "{{\"start\":{start},\"end\":{end},\"line\":{line},\"column\":{column},{},\"char_start\":{char_start},\
             \"char_end\":{char_end},\"utf16_start\":{utf16_start},\"utf16_end\":{utf16_end},\"replacement\":{}}}",
            Members(counts),
            Quoted(self.replacement)
        )
    }
}

/// Counts as an object.
pub struct CountsObject<'a>(pub &'a Counts);

impl Display for CountsObject<'_> {
    fn fmt(&self, out: &mut Formatter<'_>) -> fmt::Result {
        write!(out, "{{{}}}", Members(self.0))
    }
}

/// Counts as members of an object.
struct Members<'a>(&'a Counts);

impl Display for Members<'_> {
    fn fmt(&self, out: &mut Formatter<'_>) -> fmt::Result {
        for (index, (name, count)) in self.0.named().enumerate() {
            let comma = if index == 0 { "" } else { "," };
            let name = name.replace('-', "_");
            write!(out, "{comma}\"{name}\":{count}")?;
        }
        Ok(())
    }
}

/// An item as an object.
pub struct ItemObject<'a>(pub &'a Item);

impl Display for ItemObject<'_> {
    fn fmt(&self, out: &mut Formatter<'_>) -> fmt::Result {
        let Item {
            start,
            end,
            kind,
            tags_complete,
            char_start,
            char_end,
            utf16_start,
            utf16_end,
            ..
        } = self.0;
        let kind = kind_name(*kind);
        write!(
            out,
            "{{\"start\":{start},\"end\":{end},\"kind\":\"{kind}\",\"tags_complete\":{tags_complete},\
             \"char_start\":{char_start},\"char_end\":{char_end},\"utf16_start\":{utf16_start},\"utf16_end\":{utf16_end}}}"
        )
    }
}

/// A membership that decides texts, as an object.
pub struct TipObject<'a> {
    /// The membership.
    pub tip: &'a Tip,
    /// Whether the policy has it.
    pub is_held: bool,
    /// In how many texts it decides something.
    pub texts: usize,
}

impl Display for TipObject<'_> {
    fn fmt(&self, out: &mut Formatter<'_>) -> fmt::Result {
        let Self {
            tip,
            is_held,
            texts,
        } = self;
        write!(
            out,
            "{{\"code_point\":\"{:04X}\",\"context\":\"{}\",\"set\":\"{}\",\"held\":{is_held},\"texts\":{texts}}}",
            u32::from(tip.character),
            tip.context.name(),
            tip.set.name(),
        )
    }
}

/// Why there are no findings of a text, as an object.
pub enum ErrorObject<'a> {
    /// It was refused; where it is damaged, at this line and column.
    Refused(Refusal, Option<(usize, usize)>),
    /// It could not be read.
    Unread(&'a str),
    /// It does not have the place that was asked for.
    NoPlace(&'a str),
}

impl Display for ErrorObject<'_> {
    fn fmt(&self, out: &mut Formatter<'_>) -> fmt::Result {
        let (kind, message) = match self {
            Self::Refused(refusal, _) => ("refused", &*refusal.to_string()),
            Self::Unread(message) => ("unread", *message),
            Self::NoPlace(message) => ("no_place", *message),
        };
        write!(out, "{{\"kind\":\"{kind}\"")?;
        if let Self::Refused(refusal, place) = self {
            write!(out, ",\"number\":{}", refusal.number())?;
            if let Some(value) = refusal.value() {
                write!(out, ",\"value\":{value}")?;
            }
            if let Some((line, column)) = place {
                write!(out, ",\"line\":{line},\"column\":{column}")?;
            }
        }
        write!(out, ",\"message\":{}}}", Quoted(message))
    }
}

#[cfg(test)]
mod tests {
    use super::*;

    #[test]
    fn texts_are_quoted() {
        let quoted = Quoted("a\"b\\c\nd\u{7F}\u{2764}").to_string();
        assert_eq!(quoted, "\"a\\\"b\\\\c\\u000Ad\\u007F\u{2764}\"");
    }
}
