//! Makes or checks the stored files: the answers that the program `vectors` replays, what it is to write, and what the
//! two programs are to write on their stored inputs.
//!
//! ```text
//! cargo run --offline --release --bin stored-answers -- make
//! cargo run --offline --release --bin stored-answers -- check
//! ```
//!
//! The status is 0 if all is as it should be, 1 if a file is not, 2 on wrong arguments or a file that cannot be read or
//! written.

use std::env;
use std::io;
use std::process::ExitCode;

use tilghorz_comparison::stored::{faults, make, repository_root};

fn main() -> ExitCode {
    let arguments: Vec<String> = env::args().skip(1).collect();
    let root = repository_root();
    let found = match arguments.iter().map(String::as_str).collect::<Vec<_>>()[..] {
        ["make"] => make(&root).map(|()| Vec::new()),
        ["check"] => faults(&root),
        _ => Err(io::Error::other("usage: stored-answers make|check")),
    };
    match found {
        Ok(faults) => {
            for fault in &faults {
                eprintln!("{fault}");
            }
            ExitCode::from(u8::from(!faults.is_empty()))
        }
        Err(error) => {
            eprintln!("stored-answers: {error}");
            ExitCode::from(2)
        }
    }
}
