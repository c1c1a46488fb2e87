//! Texts as commands take them in: as they are, or with each bad place replaced by U+FFFD.

use std::borrow::Cow;
use std::str;

use tilghorz::{Refusal, Repaired};

use crate::source::{Source, Text, line_of};

/// What a command does with the texts that it takes in.
#[derive(Debug, Clone, Copy, PartialEq, Eq)]
pub enum Purpose {
    /// It writes them.
    Write,
    /// It says what it would write.
    Check,
    /// It reads them, and tells offsets.
    Read,
}

/// The text as it is, or repaired. One that is too long for that stays as it is, and the next call refuses it.
pub fn take_in(text: &Text, repairs: bool) -> Repaired<'_> {
    let repaired = repairs.then(|| tilghorz::repair(&text.bytes).ok());
    repaired.flatten().unwrap_or(Repaired {
        text: Cow::Borrowed(&text.bytes),
        replaced: 0,
    })
}

/// Says how many bad places of a text are replaced, and where the first of them is. The offset is the same in both texts.
pub fn told(source: &Source, text: &Text, replaced: usize, purpose: Purpose) -> String {
    let number = places(replaced);
    let (done, after) = match purpose {
        Purpose::Write => ("replaced", ""),
        Purpose::Check => ("would be replaced", ""),
        Purpose::Read => ("replaced", "; offsets are those of the repaired text"),
    };
    let first = if replaced == 1 { "at" } else { "the first at" };
    let well_formed = str::from_utf8(&text.bytes).map_err(|error| error.valid_up_to());
    let offset = well_formed.err().unwrap_or(text.bytes.len());
    let line = line_of(&text.bytes, offset);
    format!("{source}: {number} {done} by U+FFFD, {first} byte {offset}, in line {line}{after}")
}

/// A number of bad places.
pub fn places(number: usize) -> String {
    match number {
        1 => "1 bad place".to_owned(),
        _ => format!("{number} bad places"),
    }
}

/// The message that a text was refused after it was taken in.
pub fn refused(source: &Source, refusal: Refusal, taken: &Repaired<'_>) -> String {
    let message = source.refused(refusal, &taken.text);
    if taken.replaced == 0 || refusal != Refusal::TextTooLong {
        return message;
    }
    let (places, length) = (places(taken.replaced), taken.text.len());
    format!("{message} after the repair: with U+FFFD for {places} it has {length} bytes")
}

/// Why a repaired text is not written to its file, if it is not: a file with a byte 00 and bad places may be no text.
pub fn fault(text: &Text, replaced: usize, takes_binary: bool) -> Option<String> {
    if replaced == 0 || takes_binary || !text.bytes.contains(&0) {
        return None;
    }
    let places = places(replaced);
    Some(format!(
        "it is binary, with a byte 00 and {places}, and was left as it was (--binary takes it)"
    ))
}
