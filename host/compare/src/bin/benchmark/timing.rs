//! Times of several works, taken in turns.

use std::time::{Duration, Instant};

use crate::clock;

/// Once this time is over, a measurement ends after its [`FEWEST`] rounds.
const TIME: Duration = Duration::from_secs(2);
/// The fewest rounds.
pub const FEWEST: usize = 3;

/// The times of a work in seconds, as the thread's own clock gives them.
#[derive(Clone, Copy)]
pub struct Times {
    /// As many rounds took longer as took less.
    pub median: f64,
    /// The shortest.
    pub best: f64,
}

/// Does each of `N` works, by its number: first once without a clock, and then in turns, `rounds` times, or fewer times
/// if that takes long. Since the works take turns, other work on the machine slows all of them alike.
pub fn interleaved<const N: usize>(rounds: usize, mut work: impl FnMut(usize)) -> [Times; N] {
    let mut seconds = [const { Vec::new() }; N];
    let first = Instant::now();
    for round in 0..=rounds {
        if round > FEWEST && first.elapsed() > TIME {
            break;
        }
        for (number, seconds) in seconds.iter_mut().enumerate() {
            let start = clock::seconds();
            work(number);
            if round > 0 {
                seconds.push(clock::seconds() - start);
            }
        }
    }
    seconds.map(|mut seconds| {
        seconds.sort_by(f64::total_cmp);
        Times {
            median: seconds[seconds.len() / 2],
            best: seconds[0],
        }
    })
}
