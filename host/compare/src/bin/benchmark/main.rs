//! Measures the linked library beside the crate evfmt, in one process and on the same texts.
//!
//! In `host/`, after `python3 tools/static_library.py` in the repository root:
//!
//! ```text
//! cargo run --offline --release --package compare --bin benchmark                  # all tables, about a minute
//! cargo run --offline --release --package compare --bin benchmark -- --rounds 31 ascii mixed-48
//! cargo run --offline --release --package compare --bin benchmark -- --growth      # 64 KiB, 1 MiB and 16 MiB alone
//! cargo run --offline --release --package compare --bin benchmark -- --repairing   # damaged texts alone
//! cargo run --offline --release --package compare --bin benchmark -- --tipping     # memberships alone
//! cargo run --offline --release --package compare --bin benchmark -- --near        # stretches and offsets alone
//! cargo run --offline --release --package compare --bin benchmark -- --calls       # every call once
//! TILGHORZ_LIBRARY=FOLDER cargo run ..                                             # another libtilghorz.a
//! ```
//!
//! For instruction counts, a call is repeated on one text without the crate:
//!
//! ```text
//! valgrind --tool=callgrind --toggle-collect=tilghorz_format target/release/benchmark repeat format mixed 65536 10
//! ```
//!
//! The answers on each text of 1 MiB are compared with the crate's before anything is measured. Times are those for
//! which the thread had a processor.

mod calls;
mod clock;
mod feeding;
mod inputs;
mod near;
mod repairing;
mod tables;
mod timing;
mod words;
mod work;

use std::env;
use std::process::ExitCode;

use feeding::{Feeding, PIECES};
use inputs::{INPUTS, Input};
use near::Near;
use repairing::Repairing;
use work::Work;

/// How the program is called.
const USAGE: &str = "\
usage: benchmark [--rounds N] [--growth | --repairing | --feeding | --tipping | --near | --calls] [INPUT ..]
       benchmark repeat format|list|mend|scan|tips|repair|repair-damaged|feed|around|nearest INPUT BYTES TIMES
  --rounds N   the rounds of each measurement (15)
  --growth     only the cost at 64 KiB, 1 MiB and 16 MiB
  --repairing  only the table of repairing
  --feeding    only the table of feeding
  --tipping    only the table of the memberships that decide a text
  --near       only the table of stretches and the nearest finding
  --calls      only the table of every call
  repeat       one call of the library, TIMES times, and nothing else: for counts of instructions. feed is a thread in
               pieces of 4 KiB, around is the whole text";

/// The tables that are printed.
#[derive(Clone, Copy, PartialEq)]
enum Tables {
    All,
    Growth,
    Repairing,
    Feeding,
    Tipping,
    Near,
    Calls,
}

/// What the program is asked to do.
struct Command {
    rounds: usize,
    tables: Tables,
    inputs: Vec<&'static Input>,
}

fn main() -> ExitCode {
    let arguments: Vec<String> = env::args().skip(1).collect();
    let words: Vec<&str> = arguments.iter().map(String::as_str).collect();
    let done = match words[..] {
        ["repeat", ref words @ ..] => repeat(words),
        _ => parse(&words).and_then(|command| run(&command)),
    };
    match done {
        Ok(()) => ExitCode::SUCCESS,
        Err(fault) => {
            eprintln!("benchmark: {fault}\n{USAGE}");
            eprintln!("inputs:");
            for input in &INPUTS {
                eprintln!("  {:<11} {}", input.name, input.about);
            }
            ExitCode::from(2)
        }
    }
}

/// Reads the arguments of the tables.
fn parse(words: &[&str]) -> Result<Command, String> {
    let mut command = Command {
        rounds: 15,
        tables: Tables::All,
        inputs: Vec::new(),
    };
    let mut words = words.iter();
    while let Some(&word) = words.next() {
        match word {
            "--rounds" => command.rounds = number(words.next().copied().unwrap_or(""))?,
            "--growth" => command.tables = Tables::Growth,
            "--repairing" => command.tables = Tables::Repairing,
            "--feeding" => command.tables = Tables::Feeding,
            "--tipping" => command.tables = Tables::Tipping,
            "--near" => command.tables = Tables::Near,
            "--calls" => command.tables = Tables::Calls,
            _ => command.inputs.push(input(word)?),
        }
    }
    if command.rounds == 0 {
        return Err("--rounds 0: nothing to measure".to_owned());
    }
    if command.inputs.is_empty() {
        command.inputs = INPUTS.iter().collect();
    }
    Ok(command)
}

/// Prints the tables.
fn run(command: &Command) -> Result<(), String> {
    let (inputs, rounds) = (&command.inputs, command.rounds);
    let is_printed = |tables| [tables, Tables::All].contains(&command.tables);
    if command.tables == Tables::All {
        tables::formatting(inputs, rounds)?;
        tables::listing(inputs, rounds)?;
    }
    if is_printed(Tables::Repairing) {
        tables::repairing(inputs, rounds)?;
    }
    if is_printed(Tables::Feeding) {
        tables::feeding(inputs, rounds)?;
    }
    if is_printed(Tables::Tipping) {
        tables::tipping(inputs, rounds)?;
    }
    if is_printed(Tables::Near) {
        tables::near(inputs, rounds)?;
    }
    if is_printed(Tables::Calls) {
        tables::calls(input("mixed")?, rounds);
    }
    if is_printed(Tables::Growth) {
        tables::growth(inputs, rounds);
    }
    Ok(())
}

/// Repeats one call.
fn repeat(words: &[&str]) -> Result<(), String> {
    let &[call, name, bytes, times] = words else {
        return Err("repeat: a call, an input, bytes and times are wanted".to_owned());
    };
    let input = input(name)?;
    let text = input.make(number(bytes)?);
    if let Some(one_in) = repairing::bad_bytes(call) {
        let mut work = Repairing::new(&text, one_in)?;
        (0..number(times)?).for_each(|_| work.with_room());
        return Ok(());
    }
    let (work, mut buffers) = Work::new(input, &text);
    let mut items = work.item_table();
    let mut tips = Work::tip_table();
    let mut feeding = Feeding::new(input, &text)?;
    let mut near = Near::new(input, &text);
    for _ in 0..number(times)? {
        match call {
            "format" => work.format(&mut buffers),
            "list" => work.list(&mut buffers),
            "mend" => work.mend(1, &mut buffers),
            "scan" => work.scan(&mut items),
            "tips" => work.tips(&mut tips),
            "around" => drop(near.whole()),
            "nearest" => drop(near.nearest()),
            "feed" => feeding.pieces(PIECES[0], |_| ()),
            _ => return Err(format!("{call}: not a call")),
        }
    }
    Ok(())
}

/// The number of an argument.
fn number(word: &str) -> Result<usize, String> {
    word.parse().map_err(|_| format!("{word:?}: not a number"))
}

/// The input of a name.
fn input(name: &str) -> Result<&'static Input, String> {
    let found = INPUTS.iter().find(|input| input.name == name);
    found.ok_or_else(|| format!("{name}: not an input"))
}
