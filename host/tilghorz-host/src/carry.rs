//! `tilghorz-host policy carry`: the policy for our tables of one that was stored under the tables of another version.

use std::io::{self, Write};
use std::path::PathBuf;

use tilghorz::{Policy, Refusal, Version};

use crate::console::{Console, Status};
use crate::source::Source;

/// The command.
#[derive(Debug, PartialEq, Eq)]
pub struct Carry {
    /// The file emoji-variation-sequences.txt of the old version.
    pub from: PathBuf,
    /// The file of the stored policy.
    pub policy: PathBuf,
}

impl Carry {
    /// Writes the bytes of the new policy.
    pub fn run(&self, console: &mut Console) -> io::Result<Status> {
        let Some(carried) = self.carried(console) else {
            return Ok(Status::Fault);
        };
        console.out.write_all(carried.as_bytes())?;
        Ok(Status::Good)
    }

    /// The new policy, or a complaint.
    fn carried(&self, console: &mut Console) -> Option<Policy> {
        let from = Source::File(self.from.clone());
        let entries = match old_entries(&read_or_complain(&from, console)?) {
            Ok(entries) => entries,
            Err(fault) => {
                console.complain(&format_args!("{from}: {fault}"));
                return None;
            }
        };
        let source = Source::File(self.policy.clone());
        let stored = read_or_complain(&source, console)?;
        let complain = |refusal: &Refusal| {
            console.complain(&refused(&source, *refusal, &stored, &from, entries.len()));
        };
        let carried = Policy::carried(&entries, &stored);
        carried.inspect_err(complain).ok()
    }
}

/// The bytes of a file, or a complaint.
fn read_or_complain(source: &Source, console: &mut Console) -> Option<Vec<u8>> {
    match source.read() {
        Ok(text) => Some(text.bytes),
        Err(error) => {
            console.complain(&format_args!("{source}: {error}"));
            None
        }
    }
}

/// The entries of a file of variation sequences: the first code point of each line, each once. A line may have a comment
/// after `#`.
fn old_entries(file: &[u8]) -> Result<Vec<char>, String> {
    let mut entries: Vec<char> = Vec::new();
    for (line, number) in String::from_utf8_lossy(file).lines().zip(1..) {
        let data = line.split('#').next().unwrap_or_default().trim();
        if data.is_empty() {
            continue;
        }
        let sequence = data.split(';').next().unwrap_or_default();
        let code_points: Option<Vec<char>> = sequence.split_whitespace().map(character).collect();
        let Some([entry, '\u{FE0E}' | '\u{FE0F}']) = code_points.as_deref() else {
            return Err(format!("line {number} is no variation sequence"));
        };
        match entries.last() {
            Some(last) if last == entry => {}
            Some(last) if last > entry => {
                return Err(format!("line {number} is below the line before it"));
            }
            _ => entries.push(*entry),
        }
    }
    if entries.is_empty() {
        return Err("it has no variation sequence".to_owned());
    }
    Ok(entries)
}

/// A code point in hexadecimal digits.
fn character(digits: &str) -> Option<char> {
    u32::from_str_radix(digits, 16)
        .ok()
        .and_then(char::from_u32)
}

/// The message that a stored policy was refused. If its length does not fit the table, the message says which would.
fn refused(source: &Source, refusal: Refusal, stored: &[u8], from: &Source, old: usize) -> String {
    let number = refusal.number();
    let wanted = 8 * (4 * old.div_ceil(64) + 1);
    match (refusal, Version::of_policy(stored)) {
        (Refusal::NotAnEntryList, _) if stored.len() + 8 == wanted => format!(
            "{source}: refused {number}: a policy of {} bytes names no Unicode version. Put 8 bytes of 00 before it",
            stored.len()
        ),
        (Refusal::NotAnEntryList, _) => format!(
            "{source}: refused {number}: it has {} bytes, and a policy for the {old} entries of {from} has {wanted}",
            stored.len()
        ),
        (Refusal::NotAPolicy, Some(version)) => format!(
            "{source}: refused {number}: the policy, of Unicode {version}, has a bit set after the {old} entries of {from}"
        ),
        _ => source.refused(refusal, stored),
    }
}

#[cfg(test)]
mod tests {
    use super::*;

    #[test]
    fn the_entries_of_a_file_are_the_first_code_points() {
        let file = "# a comment\n0023 FE0E ; text style; # (1.1)\n0023 FE0F ; emoji style;\n\n1F004 FE0E;\n";
        assert_eq!(old_entries(file.as_bytes()), Ok(vec!['#', '\u{1F004}']));
    }

    #[test]
    fn a_file_that_is_no_table_is_refused_with_its_line() {
        for (file, fault) in [
            (
                "0023 FE0E;\n0022 FE0E;\n",
                "line 2 is below the line before it",
            ),
            ("# none\n", "it has no variation sequence"),
            ("0023 FE00;\n", "line 1 is no variation sequence"),
            ("0023;\n", "line 1 is no variation sequence"),
            ("x FE0E;\n", "line 1 is no variation sequence"),
            ("D800 FE0E;\n", "line 1 is no variation sequence"),
            ("0023 FE0E 20E3;\n", "line 1 is no variation sequence"),
        ] {
            assert_eq!(
                old_entries(file.as_bytes()),
                Err(fault.to_owned()),
                "{file}"
            );
        }
    }
}
