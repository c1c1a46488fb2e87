//! The command line.

use std::ffi::{OsStr, OsString};
use std::fmt::{self, Display, Formatter};
use std::num::NonZero;

use tilghorz::{Context, KeySet, Presentation};

use crate::carry::Carry;
use crate::completions::{POLICY_WORDS, Shell};
use crate::console::Colour;
use crate::fix::{Choice, Fix};
use crate::follow::Follow;
use crate::format::Format;
use crate::help::Topic;
use crate::in_parts::InParts;
use crate::options::did_you_mean;
use crate::page::Page;
use crate::place::Place;
use crate::policy::{Edit, Policy, PolicyFile};
use crate::repair::Repair;
use crate::replace::InPlace;
use crate::report::{Asked, Form, Report};
use crate::rewriting::{Mode, Rewriting};
use crate::show::Show;
use crate::source::Source;
use crate::split::Split;
use crate::tips::Tips;
use crate::view::Extent;
use crate::visible;
use crate::walk::{Pattern, Selection};
use crate::words::{Word, Words};
use crate::work::Manner;

/// What the command is asked to do.
#[derive(Debug, PartialEq, Eq)]
pub enum Command {
    /// Help.
    Help(Topic),
    /// The version.
    Version,
    /// `format`.
    Format(Format),
    /// `repair`.
    Repair(Repair),
    /// `format --follow`.
    Follow(Follow),
    /// `format --parts`.
    InParts(InParts),
    /// `split`.
    Split(Split),
    /// `report`.
    Report(Report),
    /// `fix`.
    Fix(Fix),
    /// `show`.
    Show(Show),
    /// `page`.
    Page(Page),
    /// `policy`.
    Policy(Policy),
    /// `completions`.
    Completions(Shell),
    /// `man`.
    Man,
}

/// What is wrong with a command line, and which help has more.
#[derive(Debug, PartialEq, Eq)]
pub struct Wrong {
    topic: Option<String>,
    message: String,
}

impl Display for Wrong {
    fn fmt(&self, out: &mut Formatter<'_>) -> fmt::Result {
        // A word of the command line may have control characters.
        let message = visible::text(&self.message);
        match &self.topic {
            None => write!(out, "{message}\ntry: tilghorz-host help"),
            Some(topic) => write!(out, "{topic}: {message}\ntry: tilghorz-host help {topic}"),
        }
    }
}

/// Reads the words of a command line.
pub fn parse(words: impl IntoIterator<Item = OsString>) -> Result<Command, Wrong> {
    let mut words: Vec<OsString> = words.into_iter().collect();
    let wrong = |message| Wrong {
        topic: None,
        message,
    };
    if words.is_empty() {
        return Err(wrong("no command".to_owned()));
    }
    let name = words.remove(0).to_string_lossy().into_owned();
    let is_help = |word: &OsString| word == "--help" || word == "-h";
    let asks_for_help = words.iter().take_while(|word| *word != "--").any(is_help);
    match (name.as_str(), Topic::of(&name)) {
        ("help" | "--help" | "-h", _) => help(&words).map_err(wrong),
        ("version" | "--version" | "-V", _) if words.is_empty() => Ok(Command::Version),
        ("version", _) if asks_for_help => Ok(Command::Help(Topic::All)),
        ("version" | "--version" | "-V", _) => Err(wrong("version takes no argument".to_owned())),
        (_, Some(topic)) if topic.is_command() && asks_for_help => Ok(Command::Help(topic)),
        (_, Some(topic)) if topic.is_command() => {
            command(topic, Words::new(topic, words)).map_err(|message| Wrong {
                topic: Some(name),
                message,
            })
        }
        _ => Err(wrong(no_command(&name, &[]))),
    }
}

/// The message that a word is no command. Beside the commands, these words may be meant.
fn no_command(name: &str, more: &[&str]) -> String {
    let commands = Topic::All.entries().map(|entry| entry.head);
    let meant = did_you_mean(name, commands.chain(more.iter().copied()));
    format!("{name}: not a command{meant}")
}

/// Help on a topic that may be named. That of `help` and `version` is the help on all.
fn help(words: &[OsString]) -> Result<Command, String> {
    let name = match words {
        [] => return Ok(Command::Help(Topic::All)),
        [name] => name.to_string_lossy(),
        _ => return Err("help takes at most one command".to_owned()),
    };
    let topic = match name.as_ref() {
        "help" | "version" => Some(Topic::All),
        name => Topic::of(name),
    };
    let topic = topic.ok_or_else(|| no_command(&name, &["findings", "folders"]))?;
    Ok(Command::Help(topic))
}

/// Reads the words after a command's name.
fn command(topic: Topic, words: Words) -> Result<Command, String> {
    match topic {
        Topic::All | Topic::Folders | Topic::Findings => Ok(Command::Help(topic)),
        Topic::Format => format(words),
        Topic::Repair => repair(words).map(Command::Repair),
        Topic::Report => report(words).map(Command::Report),
        Topic::Fix => fix(words).map(Command::Fix),
        Topic::Show => show(words).map(Command::Show),
        Topic::Page => page(words).map(Command::Page),
        Topic::Policy => policy(words).map(Command::Policy),
        Topic::Split => split(words).map(Command::Split),
        Topic::Completions => completions(words).map(Command::Completions),
        Topic::Man => match names(words)?.is_empty() {
            true => Ok(Command::Man),
            false => Err("it takes no argument".to_owned()),
        },
    }
}

/// The words of a command without options.
fn names(mut words: Words) -> Result<Vec<OsString>, String> {
    let mut names = Vec::new();
    while let Some(word) = words.next()? {
        match word {
            Word::Name(name) => names.push(name),
            Word::Option(option) => return words.unknown(&option),
        }
    }
    Ok(names)
}

fn completions(words: Words) -> Result<Shell, String> {
    match names(words)?.as_slice() {
        [shell] => Shell::of(&shell.to_string_lossy()),
        _ => Err("it takes one shell: bash, zsh or fish".to_owned()),
    }
}

/// The names and the policy of a command that takes texts. What its further options do is said by a function, which
/// knows an option or does not.
fn texts(
    mut words: Words,
    mut option: impl FnMut(&str, &mut Words) -> Result<bool, String>,
) -> Result<(Vec<Source>, PolicyFile), String> {
    let (mut names, mut policy, mut input) = (Vec::new(), PolicyFile::default(), None);
    while let Some(word) = words.next()? {
        match word {
            Word::Name(name) => names.push(Source::of(&name)),
            Word::Option(name) if name == "--policy" => words.policy(&name, &mut policy)?,
            Word::Option(name) if name == "--stdin-filename" => input = Some(words.value(&name)?),
            Word::Option(name) if option(&name, &mut words)? => {}
            Word::Option(name) => return words.unknown(&name),
        }
    }
    if let Some(input) = input {
        name_input(&mut names, &input)?;
    }
    Ok((names, policy))
}

/// Gives standard input a name.
fn name_input(names: &mut Vec<Source>, name: &OsStr) -> Result<(), String> {
    if names.is_empty() {
        names.push(Source::Input);
    }
    if !names.contains(&Source::Input) {
        return Err("--stdin-filename: standard input is not read".to_owned());
    }
    for source in names.iter_mut().filter(|source| **source == Source::Input) {
        *source = Source::Named(name.into());
    }
    Ok(())
}

/// Sets a flag if the option is its name.
fn set(flag: &mut bool, name: &str, option: &str) -> bool {
    *flag |= option == name;
    option == name
}

/// Which files of folders are taken, and how they are gone through.
#[derive(Default)]
struct Going {
    selection: Selection,
    manner: Manner,
}

impl Going {
    /// Does what an option says, if it is one of these.
    fn take(&mut self, option: &str, words: &mut Words) -> Result<bool, String> {
        let Self { selection, manner } = self;
        match option {
            "--exclude" => selection.exclude.push(pattern(option, words)?),
            "--include" => selection.include.push(pattern(option, words)?),
            "--jobs" => manner.jobs = Some(jobs(&words.text(option)?)?),
            _ => {
                return Ok(set(&mut selection.binary, "--binary", option)
                    || set(&mut selection.no_ignore, "--no-ignore", option)
                    || set(&mut manner.is_quiet, "--quiet", option)
                    || set(&mut manner.is_verbose, "--verbose", option));
            }
        }
        Ok(true)
    }

    /// Tests what does not go together.
    fn test(&self) -> Result<(), String> {
        if self.manner.is_quiet && self.manner.is_verbose {
            return Err("--quiet and --verbose cannot be used together".to_owned());
        }
        Ok(())
    }
}

/// The pattern of an option.
fn pattern(option: &str, words: &mut Words) -> Result<Pattern, String> {
    Pattern::of(&words.value(option)?).map_err(|fault| format!("{option} {fault}"))
}

/// A number of threads.
fn jobs(text: &str) -> Result<NonZero<usize>, String> {
    at_least_one("--jobs", text)
}

/// The value of an option that is a number.
fn at_least_one(option: &str, text: &str) -> Result<NonZero<usize>, String> {
    text.parse()
        .map_err(|_| format!("{option} {text}: not a number of at least 1"))
}

/// The options on changing files.
#[derive(Default)]
struct Changing {
    in_place: bool,
    new_owner: bool,
    no_sync: bool,
}

impl Changing {
    /// Does what an option says, if it is one of these.
    fn take(&mut self, option: &str) -> bool {
        set(&mut self.in_place, "--in-place", option)
            || set(&mut self.new_owner, "--new-owner", option)
            || set(&mut self.no_sync, "--no-sync", option)
    }

    /// How files of these names are changed, if they are.
    fn of(&self, names: &[Source]) -> Result<Option<InPlace>, String> {
        if self.in_place {
            are_files(names)?;
            return Ok(Some(InPlace {
                new_owner: self.new_owner,
                sync: !self.no_sync,
            }));
        }
        for (is_given, option) in [(self.new_owner, "--new-owner"), (self.no_sync, "--no-sync")] {
            if is_given {
                return Err(format!("{option} can only be used with --in-place"));
            }
        }
        Ok(None)
    }
}

fn format(words: Words) -> Result<Command, String> {
    let (mut repairs, mut is_followed, mut is_in_parts) = (false, false, false);
    let mut writing = Writing::default();
    let (names, policy) = texts(words, |option, words| {
        Ok(set(&mut repairs, REPAIR, option)
            || set(&mut is_followed, "--follow", option)
            || set(&mut is_in_parts, "--parts", option)
            || writing.take(option, words)?)
    })?;
    if is_in_parts {
        let others = [(repairs, REPAIR), (is_followed, "--follow")];
        return in_parts(policy, writing.of(names)?, &others).map(Command::InParts);
    }
    if is_followed {
        let others = [
            (repairs, REPAIR),
            (writing.check, "--check"),
            (writing.diff, "--diff"),
            (writing.null, "--null"),
            (writing.changing.in_place, "--in-place"),
            (writing.changing.new_owner, "--new-owner"),
            (writing.changing.no_sync, "--no-sync"),
        ];
        return follow(names, policy, &others).map(Command::Follow);
    }
    Ok(Command::Format(Format {
        policy,
        repairs,
        rewriting: writing.of(names)?,
    }))
}

fn repair(words: Words) -> Result<Repair, String> {
    let mut writing = Writing::default();
    let unknown = words.unknown("--policy");
    let (names, policy) = texts(words, |option, words| writing.take(option, words))?;
    if policy.0.is_some() {
        return unknown;
    }
    Ok(Repair {
        rewriting: writing.of(names)?,
    })
}

/// The option on bad places.
const REPAIR: &str = "--repair";

/// The options of a command that writes texts anew.
#[derive(Default)]
struct Writing {
    check: bool,
    null: bool,
    diff: bool,
    colour: Colour,
    changing: Changing,
    going: Going,
}

impl Writing {
    /// Does what an option says, if it is one of these.
    fn take(&mut self, option: &str, words: &mut Words) -> Result<bool, String> {
        if option == "--color" {
            self.colour = Colour::of(&words.text(option)?)?;
            return Ok(true);
        }
        Ok(set(&mut self.check, "--check", option)
            || set(&mut self.null, "--null", option)
            || set(&mut self.diff, "--diff", option)
            || self.changing.take(option)
            || self.going.take(option, words)?)
    }

    /// What is to be done with the texts of these names.
    fn of(self, names: Vec<Source>) -> Result<Rewriting, String> {
        self.going.test()?;
        let mode = match (self.check, self.diff, self.changing.in_place) {
            (true, _, true) => {
                return Err("--check and --in-place cannot be used together".to_owned());
            }
            (_, true, true) => {
                return Err("--diff and --in-place cannot be used together".to_owned());
            }
            (_, true, _) => Mode::Diff(self.colour.is_used()),
            (true, ..) => Mode::Check { null: self.null },
            (_, _, true) => Mode::InPlace,
            _ => Mode::Write,
        };
        if self.null && !matches!(mode, Mode::Check { .. }) {
            return Err("--null can only be used with --check".to_owned());
        }
        let Going {
            selection,
            mut manner,
        } = self.going;
        manner.in_place = self.changing.of(&names)?;
        Ok(Rewriting {
            mode,
            names,
            selection,
            manner,
        })
    }
}

/// A text that is followed. These other options cannot be used with it.
fn follow(
    mut names: Vec<Source>,
    policy: PolicyFile,
    others: &[(bool, &str)],
) -> Result<Follow, String> {
    if let Some((_, other)) = others.iter().find(|(is_given, _)| *is_given) {
        return Err(format!("--follow and {other} cannot be used together"));
    }
    if names.len() > 1 {
        return Err("--follow takes standard input or one file".to_owned());
    }
    Ok(Follow {
        policy,
        source: names.pop().unwrap_or(Source::Input),
    })
}

/// A text that is formatted in parts. These other options cannot be used with it.
fn in_parts(
    policy: PolicyFile,
    mut rewriting: Rewriting,
    others: &[(bool, &str)],
) -> Result<InParts, String> {
    if let Some((_, other)) = others.iter().find(|(is_given, _)| *is_given) {
        return Err(format!("--parts and {other} cannot be used together"));
    }
    if matches!(rewriting.mode, Mode::Diff(_)) {
        return Err("--parts and --diff cannot be used together".to_owned());
    }
    if rewriting.names.len() > 1 {
        return Err("--parts takes standard input or one file, and no number".to_owned());
    }
    Ok(InParts {
        policy,
        source: rewriting.names.pop().unwrap_or(Source::Input),
        mode: rewriting.mode,
        jobs: rewriting.manner.jobs,
        in_place: rewriting.manner.in_place,
        is_whole: false,
    })
}

fn split(mut words: Words) -> Result<Split, String> {
    let (mut parts, mut names) = (None, Vec::new());
    while let Some(word) = words.next()? {
        match word {
            Word::Name(name) => names.push(name.into()),
            Word::Option(option) if option == "--parts" => {
                parts = Some(at_least_one(&option, &words.text(&option)?)?);
            }
            Word::Option(option) => return words.unknown(&option),
        }
    }
    let parts = parts.ok_or("--parts N is missing")?;
    match <[_; 2]>::try_from(names) {
        Ok([folder, file]) => Ok(Split {
            parts,
            folder,
            file,
        }),
        Err(_) => Err("it takes a folder that it makes, and a file".to_owned()),
    }
}

/// Whether names can be changed in place.
fn are_files(names: &[Source]) -> Result<(), String> {
    if names.is_empty() || names.iter().any(Source::is_input) {
        return Err("--in-place: standard input cannot be changed in place".to_owned());
    }
    Ok(())
}

fn report(words: Words) -> Result<Report, String> {
    let (mut form, mut items, mut repairs) = (Form::Lines, false, false);
    let (mut at, mut from, mut to) = (None, None, None);
    let mut going = Going::default();
    let (names, policy) = texts(words, |option, words| {
        let place = match option {
            "--at" => &mut at,
            "--from" => &mut from,
            "--to" => &mut to,
            "--format" => {
                form = Form::of(&words.text(option)?)?;
                return Ok(true);
            }
            "--json" => {
                form = Form::Json;
                return Ok(true);
            }
            _ => {
                return Ok(set(&mut items, "--items", option)
                    || set(&mut repairs, REPAIR, option)
                    || going.take(option, words)?);
            }
        };
        *place = Some(Place::of(option, &words.text(option)?)?);
        Ok(true)
    })?;
    going.test()?;
    if items && form == Form::Short {
        return Err("--items and --format short cannot be used together".to_owned());
    }
    let Going { selection, manner } = going;
    Ok(Report {
        form,
        asked: asked(items, at, from, to)?,
        repairs,
        policy,
        names,
        selection,
        manner,
    })
}

/// What a report is asked for.
fn asked(
    items: bool,
    at: Option<Place>,
    from: Option<Place>,
    to: Option<Place>,
) -> Result<Asked, String> {
    let together = |options: &str| Err(format!("{options} cannot be used together"));
    match (items, at, from.or(to)) {
        (true, Some(_), _) => together("--items and --at"),
        (true, _, Some(_)) => together("--items and --from or --to"),
        (_, Some(_), Some(_)) => together("--at and --from or --to"),
        (true, None, None) => Ok(Asked::Items),
        (false, Some(place), None) => Ok(Asked::At(place)),
        (false, None, Some(_)) => Ok(Asked::Between(from.unwrap_or(Place::Byte(0)), to)),
        (false, None, None) => Ok(Asked::Findings),
    }
}

fn fix(words: Words) -> Result<Fix, String> {
    // Decisions before the first `--at` are those of the only one.
    let (mut choices, mut early) = (Vec::<Choice>::new(), Vec::new());
    let mut changing = Changing::default();
    let (mut repairs, mut binary) = (false, false);
    let (mut names, policy) = texts(words, |option, words| {
        match option {
            "--at" => choices.push(Choice {
                at: Place::of(option, &words.text(option)?)?,
                decisions: Vec::new(),
            }),
            "--decide" => {
                let last = choices.last_mut().map(|choice| &mut choice.decisions);
                let last = last.unwrap_or(&mut early);
                last.extend(decisions(&words.text(option)?)?);
            }
            _ => {
                return Ok(set(&mut repairs, REPAIR, option)
                    || set(&mut binary, "--binary", option)
                    || changing.take(option));
            }
        }
        Ok(true)
    })?;
    let in_place = changing.of(&names)?;
    match choices.as_mut_slice() {
        [] => return Err("--at PLACE is missing".to_owned()),
        [only] => only.decisions.splice(..0, early).for_each(drop),
        _ if !early.is_empty() => return Err("--decide: no --at before it".to_owned()),
        _ => {}
    }
    if names.len() > 1 {
        return Err("it takes one text only".to_owned());
    }
    Ok(Fix {
        choices,
        repairs,
        binary,
        in_place,
        policy,
        source: names.pop().unwrap_or(Source::Input),
    })
}

/// The decisions of a value of `--decide`, with commas between them.
fn decisions(text: &str) -> Result<Vec<Option<Presentation>>, String> {
    let decision = |word: &str| match word {
        "text" => Ok(Some(Presentation::Text)),
        "emoji" => Ok(Some(Presentation::Emoji)),
        "default" => Ok(None),
        _ => Err(format!(
            "--decide {text}: {word:?} is neither text, emoji nor default"
        )),
    };
    text.split(',').map(decision).collect()
}

fn show(words: Words) -> Result<Show, String> {
    let (mut repairs, mut going) = (false, Going::default());
    let (mut all, mut context, mut colour) = (false, None, Colour::default());
    let (names, policy) = texts(words, |option, words| {
        match option {
            "--context" => context = Some(lines(&words.text(option)?)?),
            "--color" => colour = Colour::of(&words.text(option)?)?,
            _ => {
                return Ok(set(&mut all, "--all", option)
                    || set(&mut repairs, REPAIR, option)
                    || going.take(option, words)?);
            }
        }
        Ok(true)
    })?;
    going.test()?;
    let Going { selection, manner } = going;
    let extent = match (all, context) {
        (true, Some(_)) => return Err("--all and --context cannot be used together".to_owned()),
        (true, None) => Extent::All,
        (false, context) => Extent::Around(context.unwrap_or(0)),
    };
    Ok(Show {
        extent,
        is_coloured: colour.is_used(),
        repairs,
        policy,
        names,
        selection,
        manner,
    })
}

fn page(words: Words) -> Result<Page, String> {
    let (mut repairs, mut going) = (false, Going::default());
    let (mut output, mut most) = (None, Page::MOST);
    let (names, policy) = texts(words, |option, words| {
        match option {
            "--output" => output = Some(Source::of(&words.value(option)?)),
            "--most" => most = number_of_findings(&words.text(option)?)?,
            _ => {
                return Ok(set(&mut repairs, REPAIR, option) || going.take(option, words)?);
            }
        }
        Ok(true)
    })?;
    going.test()?;
    let Going { selection, manner } = going;
    Ok(Page {
        output: output.ok_or("--output FILE is missing")?,
        most,
        repairs,
        policy,
        names,
        selection,
        manner,
    })
}

/// A number of findings.
fn number_of_findings(text: &str) -> Result<usize, String> {
    text.parse()
        .map_err(|_| format!("--most {text}: not a number of findings"))
}

/// A number of lines.
fn lines(text: &str) -> Result<usize, String> {
    text.parse()
        .map_err(|_| format!("--context {text}: not a number of lines"))
}

fn policy(mut words: Words) -> Result<Policy, String> {
    let action = words
        .text("policy")
        .map_err(|_| "the policy command is missing: print, compare, write, carry or tips")?;
    if action == "tips" {
        return tips(words).map(Policy::Tips);
    }
    let (mut edits, mut files, mut members) = (Vec::new(), Vec::new(), false);
    let mut from = PolicyFile::default();
    while let Some(word) = words.next()? {
        match word {
            Word::Name(name) => files.push(PolicyFile(Some(name.into()))),
            Word::Option(option) => match (action.as_str(), option.as_str()) {
                ("write", "--add" | "--take") => edits.push(edit(&mut words, &option)?),
                ("print", "--members") => members = true,
                ("carry", "--from") => words.policy(&option, &mut from)?,
                _ => return words.unknown(&option),
            },
        }
    }
    let most = if action == "compare" { 2 } else { 1 };
    if files.len() > most {
        return Err(format!("{action}: too many files"));
    }
    let mut files = files.into_iter();
    let first = files.next();
    match action.as_str() {
        "print" if members => Ok(Policy::Members(first.unwrap_or_default())),
        "print" => Ok(Policy::Print(first.unwrap_or_default())),
        "compare" => {
            let first = first.ok_or("compare: a file is missing")?;
            Ok(Policy::Compare(first, files.next().unwrap_or_default()))
        }
        "carry" => Ok(Policy::Carry(Carry {
            from: from.0.ok_or("carry: --from FILE is missing")?,
            policy: first
                .and_then(|file| file.0)
                .ok_or("carry: a file is missing")?,
        })),
        "write" => Ok(Policy::Write(first.unwrap_or_default(), edits)),
        _ => {
            let meant = did_you_mean(&action, POLICY_WORDS);
            Err(format!("unknown policy command {action}{meant}"))
        }
    }
}

fn tips(words: Words) -> Result<Tips, String> {
    let (mut json, mut repairs, mut going) = (false, false, Going::default());
    let (names, policy) = texts(words, |option, words| {
        Ok(set(&mut json, "--json", option)
            || set(&mut repairs, REPAIR, option)
            || going.take(option, words)?)
    })?;
    going.test()?;
    let Going { selection, manner } = going;
    Ok(Tips {
        json,
        repairs,
        policy,
        names,
        selection,
        manner,
    })
}

/// A member to add or to take.
fn edit(words: &mut Words, option: &str) -> Result<Edit, String> {
    let set = words.text(option)?;
    let context = words.text(option)?;
    let code = words.text(option)?;
    let named = |name: &str| format!("{option} {set} {context} {code}: {name}");
    let character = code.strip_prefix("U+").unwrap_or(&code);
    let character = u32::from_str_radix(character, 16)
        .ok()
        .and_then(char::from_u32);
    Ok(Edit {
        is_added: option == "--add",
        set: KeySet::ALL
            .into_iter()
            .find(|known| known.name() == set)
            .ok_or_else(|| named("the set is neither prefer_bare nor bare_as_text"))?,
        context: Context::ALL
            .into_iter()
            .find(|known| known.name() == context)
            .ok_or_else(|| named("the context is neither ordinary nor keycap"))?,
        character: character.ok_or_else(|| named("not a code point in hexadecimal digits"))?,
    })
}
