//! Makes calls of the linked library on slices of every small length, exactly full and one byte off, at every
//! alignment, and compares all that they do.
//!
//! In `host/`, after `python3 tools/static_library.py` in the repository root:
//!
//! ```text
//! cargo run --offline --release --package compare --bin boundary                # some seconds
//! cargo run --offline --release --package compare --bin boundary -- --limits    # and lengths around the limits
//! valgrind --error-exitcode=1 target/release/boundary --cases 1000              # no byte outside an allocation
//! ```
//!
//! Under valgrind a byte that is read or written before or after a slice at the edge of its allocation is an error.
//! The status is 0 if there is no difference, 1 on a difference, 2 on wrong arguments.

use std::env;
use std::process::ExitCode;

use compare::library::Library;
use tilghorz_comparison::boundary::command;

fn main() -> ExitCode {
    command::main(&Library, env::args().skip(1))
}
