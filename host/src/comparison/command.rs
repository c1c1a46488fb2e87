//! The command line of the program `compare`.

use std::io::{self, Write};
use std::process::ExitCode;

use super::faults::{FAULTS, Fault};
use super::faulty::Faulty;
use super::programs::Programs;
use super::run::{Options, run};
use crate::calls::Calls;

/// How the program is called.
pub const USAGE: &str = "\
usage: compare [--cases N] [--seconds S] [--seed N] [--length N] [--sheets N] [--without-limits]
               [--without-published] [--programs FORMAT REPORT] [--fault NAME | --faults]
  --cases N            at most N drawn texts, damaged ones and lists of calls each
  --seconds S          begin no further case after S seconds; a kind of which no case was begun fails the run
  --seed N             the seed of what is drawn
  --length N           try every text of up to N characters, one of each kind
  --sheets N           try every sheet of up to N tokens, of up to N bytes, but at most 6, out of 9, and of up to N - 2
                       bytes out of 21
  --without-limits     leave out the texts around the limits
  --without-published  leave out the texts of Unicode's lists
  --programs ..        compare the two programs at these paths too
  --fault NAME         plant a fault into the calls: the run must report a difference
  --faults             plant each fault in turn: each must be reported";

/// What the program is asked to do.
#[derive(Debug, PartialEq, Eq)]
pub struct Command {
    /// The bounds of the run.
    pub options: Options,
    /// What is planted.
    pub planted: Planted,
    /// The two programs, if they are compared too.
    pub programs: Option<Programs>,
}

/// What is planted into the calls.
#[derive(Debug, PartialEq, Eq)]
pub enum Planted {
    /// Nothing.
    Nothing,
    /// A fault.
    One(Fault),
    /// Each fault in turn.
    Each,
}

impl Command {
    /// Reads the arguments, or says what is wrong with them.
    pub fn parse(arguments: impl IntoIterator<Item = String>) -> Result<Self, String> {
        let mut command = Self {
            options: Options::default(),
            planted: Planted::Nothing,
            programs: None,
        };
        let mut arguments = arguments.into_iter();
        while let Some(name) = arguments.next() {
            let mut value = || arguments.next().ok_or(format!("{name}: no value"));
            let options = &mut command.options;
            match name.as_str() {
                "--cases" => options.cases = number(&name, &value()?)?,
                "--seconds" => options.seconds = number(&name, &value()?)?,
                "--seed" => options.seed = number(&name, &value()?)?,
                "--length" => options.length = number(&name, &value()?)?,
                "--sheets" => options.sheets = number(&name, &value()?)?,
                "--without-limits" => options.limits = false,
                "--without-published" => options.published = false,
                "--programs" => {
                    let (format, report) = (value()?.into(), value()?.into());
                    command.programs = Some(Programs { format, report });
                }
                "--fault" => command.planted = Planted::One(fault(&value()?)?),
                "--faults" => command.planted = Planted::Each,
                _ => return Err(format!("{name}: not known")),
            }
        }
        Ok(command)
    }

    /// Does what is asked. True if all is as it should be.
    pub fn execute(&self, calls: &dyn Calls, out: &mut dyn Write) -> io::Result<bool> {
        match self.planted {
            Planted::Nothing => Ok(run(calls, &self.options, out)? && self.programs(out)?),
            Planted::One(fault) => run(&Faulty::new(calls, fault), &self.options, out),
            Planted::Each => self.plant_each(calls, out),
        }
    }

    /// Compares the programs, if that is asked. True if there was no difference.
    fn programs(&self, out: &mut dyn Write) -> io::Result<bool> {
        match &self.programs {
            None => Ok(true),
            Some(programs) => programs.compare(self.options.seed, out),
        }
    }

    /// Whether each planted fault is reported: a run that fails for another reason, as that it tried nothing, is no report.
    fn plant_each(&self, calls: &dyn Calls, out: &mut dyn Write) -> io::Result<bool> {
        let mut are_reported = true;
        for (name, fault) in FAULTS {
            let mut report = Vec::new();
            let is_same = run(&Faulty::new(calls, fault), &self.options, &mut report)?;
            let report = String::from_utf8_lossy(&report);
            match report.lines().find(|line| line.starts_with("difference")) {
                Some(line) if !is_same => writeln!(out, "{name:<20} {line}")?,
                _ => {
                    are_reported = false;
                    writeln!(out, "{name:<20} NOT REPORTED\n{report}")?;
                }
            }
        }
        Ok(are_reported)
    }
}

/// Runs the program on some calls: status 0 if all is as it should be, 1 on a difference, 2 on wrong arguments.
pub fn main(calls: &dyn Calls, arguments: impl IntoIterator<Item = String>) -> ExitCode {
    let command = match Command::parse(arguments) {
        Ok(command) => command,
        Err(fault) => {
            eprintln!("compare: {fault}\n{USAGE}");
            return ExitCode::from(2);
        }
    };
    match command.execute(calls, &mut io::stdout()) {
        Ok(true) => ExitCode::SUCCESS,
        Ok(false) => ExitCode::FAILURE,
        Err(error) => {
            eprintln!("compare: {error}");
            ExitCode::from(2)
        }
    }
}

/// The number of an argument.
fn number<T: std::str::FromStr>(name: &str, value: &str) -> Result<T, String> {
    value
        .parse()
        .map_err(|_| format!("{name} {value}: not a number"))
}

/// The fault of a name.
fn fault(name: &str) -> Result<Fault, String> {
    let found = FAULTS.iter().find(|(known, _)| *known == name);
    found.map(|(_, fault)| *fault).ok_or_else(|| {
        let names: Vec<&str> = FAULTS.iter().map(|(name, _)| *name).collect();
        format!("--fault {name}: not one of {}", names.join(" "))
    })
}
