//! The command line of the program `boundary`.

use std::io::{self, Write};
use std::process::ExitCode;
use std::time::Instant;

use super::cases::Boundary;
use crate::calls::Calls;
use crate::comparison::lent::Difference;

/// How the program is called.
const USAGE: &str = "\
usage: boundary [--cases N] [--seed N] [--limits]
  --cases N  the number of drawn texts (10000)
  --seed N   the seed of what is drawn (1)
  --limits   the lengths around the limits of a text too";

/// What the program is asked to do.
#[derive(Debug, Clone, Copy, PartialEq, Eq)]
pub struct Options {
    /// The number of drawn texts.
    pub cases: u64,
    /// The seed of what is drawn.
    pub seed: u64,
    /// Whether texts around the limits are tried.
    pub limits: bool,
}

impl Options {
    /// Reads the arguments, or says what is wrong with them.
    pub fn parse(arguments: impl IntoIterator<Item = String>) -> Result<Self, String> {
        let mut options = Self {
            cases: 10_000,
            seed: 1,
            limits: false,
        };
        let mut arguments = arguments.into_iter();
        while let Some(name) = arguments.next() {
            let mut number = || match arguments.next().map(|value| value.parse()) {
                Some(Ok(number)) => Ok(number),
                _ => Err(format!("{name}: a number is wanted")),
            };
            match name.as_str() {
                "--cases" => options.cases = number()?,
                "--seed" => options.seed = number()?,
                "--limits" => options.limits = true,
                _ => return Err(format!("{name}: not known")),
            }
        }
        Ok(options)
    }
}

/// A kind of cases.
type Kind<'a> = fn(&mut Boundary<'a>) -> Result<(), Difference>;

/// Makes all calls and prints how many of each kind there were. True if there was no difference; the first one is
/// printed, with a reduced text. It is not true where a kind that was asked for made no call.
pub fn run(calls: &dyn Calls, options: &Options, out: &mut dyn Write) -> io::Result<bool> {
    writeln!(out, "seed {}", options.seed)?;
    let start = Instant::now();
    let mut boundary = Boundary::new(calls, options.seed);
    let kinds: [(&str, Kind<'_>, u64); 16] = [
        ("sizes", Boundary::sizes, 1),
        ("policies", Boundary::policies, 1),
        ("decisions", Boundary::decisions, 1),
        ("default policy", Boundary::default_policy, 1),
        ("one memory", Boundary::one_memory, 1),
        ("feeds", Boundary::feeds, 1),
        ("sheets", Boundary::sheets, 1),
        ("carries", Boundary::carries, 1),
        ("near", Boundary::near, 1),
        ("stores", Boundary::stores, 1),
        ("cuts", Boundary::cuts, 1),
        ("drawn", Boundary::drawn, options.cases),
        ("drawn sheets", Boundary::drawn_sheets, options.cases / 4),
        ("drawn carries", Boundary::drawn_carries, options.cases / 4),
        ("limits", Boundary::limits, options.limits.into()),
        ("long sheets", Boundary::long_sheets, options.limits.into()),
    ];
    for (name, kind, times) in kinds {
        let before = boundary.made;
        for _ in 0..times {
            if let Err(difference) = kind(&mut boundary) {
                writeln!(out, "difference in {name}\n{difference}")?;
                return Ok(false);
            }
        }
        let (made, seconds) = (boundary.made - before, start.elapsed().as_secs_f32());
        if made == 0 && times > 0 {
            writeln!(out, "nothing was tried: {name}")?;
            return Ok(false);
        }
        writeln!(out, "{name:<15}{made:>9} calls ({seconds:.1} s)")?;
    }
    writeln!(out, "no difference")?;
    Ok(true)
}

/// Runs the program on some calls: status 0 if all is as it should be, 1 on a difference, 2 on wrong arguments.
pub fn main(calls: &dyn Calls, arguments: impl IntoIterator<Item = String>) -> ExitCode {
    let is_same = Options::parse(arguments)
        .map_err(|fault| format!("{fault}\n{USAGE}"))
        .and_then(|options| {
            run(calls, &options, &mut io::stdout()).map_err(|error| error.to_string())
        });
    match is_same {
        Ok(true) => ExitCode::SUCCESS,
        Ok(false) => ExitCode::FAILURE,
        Err(fault) => {
            eprintln!("boundary: {fault}");
            ExitCode::from(2)
        }
    }
}
