//! Runs the linked library beside the crate evfmt and an independent reading of document 01.
//!
//! In `host/`, after `python3 tools/static_library.py` in the repository root:
//!
//! ```text
//! cargo run --offline --release --package compare                             # about two minutes
//! cargo run --offline --release --package compare -- --faults --length 2 --sheets 4 --cases 1000 --without-published
//! cargo run --offline --release --package compare -- --seconds 3600 --cases 100000000 --length 5 --seed 2
//! ```
//!
//! The second plants faults into the calls and fails unless each is reported. The third is a longer run. The status is
//! 0 if there is no difference, 1 on a difference, 2 on wrong arguments.

use std::env;
use std::process::ExitCode;

use compare::library::Library;
use tilghorz_comparison::comparison::command;

fn main() -> ExitCode {
    command::main(&Library, env::args().skip(1))
}
