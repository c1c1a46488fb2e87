//! A host that follows a thread by a feed. The thread comes through standard input, in pieces that are cut at any byte.
//!
//! What is decided is written at once: all but an unfinished character and a last base that has a variation entry. The
//! totals are told at the end. If the thread is refused, what was written before stays.
//!
//! ```console
//! $ (printf '1\357\270'; sleep 1; printf '\216 and \342\235'; sleep 1; printf '\244') | follow | od -An -tx1
//! 12 bytes: 1 policy-redundant, 1 decisions
//!  31 20 61 6e 64 20 e2 9d a4 ef b8 8e
//! $ (printf 'good '; sleep 1; printf '\377') | follow; echo "status $?"
//! good refused 3: not well-formed UTF-8 at byte 5
//! status 2
//! ```

use std::error::Error;
use std::io::{self, Read, Write};
use std::process::ExitCode;

use tilghorz::{Counts, Feed, Policy, Refusal};

/// The longest piece.
const PIECE: usize = 2048;

fn main() -> Result<ExitCode, Box<dyn Error>> {
    match follow(&mut io::stdin().lock(), &mut io::stdout().lock()) {
        Ok(feed) => {
            eprintln!("{} bytes: {}", feed.fed(), told(&feed.totals()));
            Ok(ExitCode::SUCCESS)
        }
        Err(error) => match error.downcast_ref::<Refusal>() {
            Some(refusal) => {
                eprintln!("refused {}: {refusal}", refusal.number());
                Ok(ExitCode::from(2))
            }
            None => Err(error),
        },
    }
}

/// Formats a thread as it comes. The feed has its totals.
fn follow(thread: &mut impl Read, out: &mut impl Write) -> Result<Feed, Box<dyn Error>> {
    let mut feed = Feed::new(&Policy::default());
    let (mut piece, mut formatted) = ([0; PIECE], [0; Feed::room_for(PIECE)]);
    loop {
        let length = thread.read(&mut piece)?;
        let written = match length {
            0 => feed.finish_into(&mut formatted)?,
            _ => feed.write_into(&piece[..length], &mut formatted)?,
        };
        out.write_all(&formatted[..written])?;
        out.flush()?;
        if length == 0 {
            return Ok(feed);
        }
    }
}

/// The counts that are not 0.
fn told(totals: &Counts) -> String {
    let counts = totals.named().filter(|(_, count)| *count > 0);
    let counts: Vec<String> = counts
        .map(|(name, count)| format!("{count} {name}"))
        .collect();
    match counts.len() {
        0 => "no finding".to_owned(),
        _ => counts.join(", "),
    }
}
