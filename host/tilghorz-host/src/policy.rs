//! `tilghorz-host policy`, and the policies that the other commands read.

use std::io::{self, Write};
use std::path::PathBuf;

use tilghorz::{Context, Key, KeySet, Refusal, SingletonRule, Version, variation_entries};

use crate::carry::Carry;
use crate::console::{Console, Status};
use crate::sheet::explanation;
use crate::source::Source;
use crate::tips::Tips;

/// The file of a policy; without one it is the default policy.
#[derive(Debug, Default, PartialEq, Eq)]
pub struct PolicyFile(pub Option<PathBuf>);

/// The command.
#[derive(Debug, PartialEq, Eq)]
pub enum Policy {
    /// Prints the sheet.
    Print(PolicyFile),
    /// Prints the members, with their numbers.
    Members(PolicyFile),
    /// Prints what differs.
    Compare(PolicyFile, PolicyFile),
    /// Writes the bytes, after these edits.
    Write(PolicyFile, Vec<Edit>),
    /// Writes the bytes of a policy that is carried over.
    Carry(Carry),
    /// Counts which single membership decides texts.
    Tips(Tips),
}

/// A member that is added or taken.
#[derive(Debug, PartialEq, Eq)]
pub struct Edit {
    /// Added, or else taken.
    pub is_added: bool,
    /// The key set.
    pub set: KeySet,
    /// The context.
    pub context: Context,
    /// The base.
    pub character: char,
}

impl PolicyFile {
    /// Reads the policy, or says why it is none. A file with a byte 00 is a stored policy: each has such bytes, since its
    /// unused bits fill whole bytes. Any other file is a sheet.
    pub fn read_or_complain(&self, console: &mut Console) -> Option<tilghorz::Policy> {
        self.read()
            .inspect_err(|message| console.complain(message))
            .ok()
    }

    /// Reads the policy. The error is the message that says why it is none.
    pub fn read(&self) -> Result<tilghorz::Policy, String> {
        let Some(path) = &self.0 else {
            return Ok(tilghorz::Policy::default());
        };
        let source = Source::File(path.clone());
        let text = source.read();
        let bytes = text.map_err(|error| format!("{source}: {error}"))?.bytes;
        let policy = if bytes.contains(&0) {
            tilghorz::Policy::from_bytes(&bytes)
        } else {
            tilghorz::Policy::from_sheet(&bytes)
        };
        policy.map_err(|refusal| refused(&source, refusal, &bytes) + &explanation(&bytes, refusal))
    }
}

/// The bytes of a policy as it was stored before it began with a version.
const WITHOUT_VERSION: usize = tilghorz::sys::POLICY_BYTES - 8;

/// The message that the bytes of a policy were refused. It names the versions, where they are the cause.
fn refused(source: &Source, refusal: Refusal, bytes: &[u8]) -> String {
    let tables = tilghorz::version();
    let number = refusal.number();
    match (refusal, Version::of_policy(bytes)) {
        (Refusal::OtherVersion, Some(version)) => format!(
            "{source}: refused {number}: the policy is of Unicode {version}, and the tables are of Unicode {tables}"
        ),
        (Refusal::NotAPolicy, _) if bytes.len() == WITHOUT_VERSION => {
            let front = tilghorz::Policy::default().as_bytes()[..8]
                .iter()
                .map(|byte| format!("\\{byte:03o}"))
                .collect::<String>();
            format!(
                "{source}: refused {number}: a policy of {WITHOUT_VERSION} bytes names no Unicode version. If it is of \
                 {tables}, write it anew: (printf '{front}'; cat {source}) > NEW"
            )
        }
        _ => source.refused(refusal, bytes),
    }
}

impl Policy {
    /// Does it.
    pub fn run(&self, console: &mut Console) -> io::Result<Status> {
        match self {
            Self::Tips(tips) => tips.run(console),
            Self::Carry(carry) => carry.run(console),
            Self::Print(file) => match file.read_or_complain(console) {
                None => Ok(Status::Fault),
                Some(policy) => console.print(&policy.to_string()),
            },
            Self::Members(file) => match file.read_or_complain(console) {
                None => Ok(Status::Fault),
                Some(policy) => members(&policy, &mut console.out),
            },
            Self::Compare(first, second) => {
                let policies = (
                    first.read_or_complain(console),
                    second.read_or_complain(console),
                );
                let (Some(first), Some(second)) = policies else {
                    return Ok(Status::Fault);
                };
                compare(&first, &second, &mut console.out)
            }
            Self::Write(file, edits) => {
                let Some(mut policy) = file.read_or_complain(console) else {
                    return Ok(Status::Fault);
                };
                for edit in edits {
                    if let Err(fault) = edit.apply(&mut policy) {
                        console.complain(&fault);
                        return Ok(Status::Fault);
                    }
                }
                console.out.write_all(policy.as_bytes())?;
                Ok(Status::Good)
            }
        }
    }
}

impl Edit {
    /// Adds or takes the member.
    fn apply(&self, policy: &mut tilghorz::Policy) -> Result<bool, tilghorz::NoEntry> {
        if self.is_added {
            policy.add(self.set, self.character, self.context)
        } else {
            policy.take(self.set, self.character, self.context)
        }
    }
}

/// Prints the four sets, each with its members.
fn members(policy: &tilghorz::Policy, out: &mut impl Write) -> io::Result<Status> {
    const COLUMNS: usize = 16;
    for set in KeySet::ALL {
        for context in Context::ALL {
            let members: Vec<char> = policy.members(set, context).collect();
            let (number, entries) = (members.len(), variation_entries().len());
            writeln!(
                out,
                "{} {}: {number} of {entries}",
                set.name(),
                context.name()
            )?;
            for line in members.chunks(COLUMNS) {
                for member in line {
                    write!(out, " {:04X}", u32::from(*member))?;
                }
                writeln!(out)?;
            }
        }
    }
    Ok(Status::Good)
}

/// The bases and contexts with two rules, and the rules.
pub fn differences(
    first: &tilghorz::Policy,
    second: &tilghorz::Policy,
) -> impl Iterator<Item = (Key, [SingletonRule; 2])> {
    Key::all()
        .map(|key| (key, [first.rule(key), second.rule(key)]))
        .filter(|(_, [one, other])| one != other)
}

/// Prints the bases and contexts with two rules.
fn compare(
    first: &tilghorz::Policy,
    second: &tilghorz::Policy,
    out: &mut impl Write,
) -> io::Result<Status> {
    for (key, [one, other]) in differences(first, second) {
        let (base, context) = (u32::from(key.character()), key.context().name());
        writeln!(out, "{base:04X} {context}: {one:?}, {other:?}")?;
    }
    Ok(if first == second {
        Status::Good
    } else {
        Status::Different
    })
}
