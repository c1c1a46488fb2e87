//! The tables that are printed.

use crate::calls::{Each, NAMES};
use crate::feeding::{Feeding, PIECES};
use crate::inputs::Input;
use crate::near::Near;
use crate::repairing::{BAD_ONE_IN, Repairing};
use crate::timing::{FEWEST, Times, interleaved};
use crate::work::Work;

/// The length of the texts that are compared.
const LENGTH: usize = 1 << 20;
/// The lengths at which the growth is shown, the last one being the longest text.
const LENGTHS: [usize; 3] = [1 << 16, 1 << 20, 1 << 24];

/// What stands above the table of formatting.
const FORMATTING: &str = "\
Formatting texts of 1 MiB, in MB/s (10^6 bytes a second): the median, and the best in brackets. The library writes into
a buffer that is lent again and not cleared; the crate makes a String in each call, and takes a text that is tested.
ratio: the crate's time to ours, by the medians and by the best. of from_utf8: our time to that of from_utf8; at most 3
is wanted where there is no finding.";

/// What stands above the table of listing.
const LISTING: &str = "\
Listing the findings into a lent table, beside the crate's scan and analysis, which keep nothing: a ratio of 3 is wanted
on mixed and dense. Mending the first and the last finding: its time to that of a listing and a copy.";

/// The text above the table of repairing.
const REPAIRING: &str = "\
Repairing, compared with from_utf8_lossy made into an owned string: well-formed texts, and texts with one bad byte in a
hundred. room: into a buffer of three times the text; exact: into a buffer that the result fills. ratios: the standard
library's time divided by the library's, by the medians and by the best; 0.8 is wanted for well-formed texts, 1 for
damaged ones.";

/// The text above the table of feeding.
const FEEDING: &str = "\
A thread fed in pieces of 4 KiB and of 64 bytes, beside formatting it in one call. ratio: the time of the one call divided
by that of the pieces; on ascii and mixed 0.5 is wanted for 4 KiB, and 0.2 for 64 bytes.";

/// The text above the table of the memberships that decide a text.
const TIPPING: &str = "\
Listing the memberships whose flip alters the text, beside formatting it. ratio: its time divided by that of formatting, by
the medians and by the best; at most 3 is wanted on mixed, dense, cyrillic and cjk, and 500 MB/s on ascii.";

/// The text above the table of stretches.
const NEAR: &str = "\
The findings around a stretch, and the one nearest to the middle of the text, compared with listing all findings. whole: the
stretch is the whole text; middle: it is a tenth in the middle; first: it is the first three bytes. counted: the whole text, and the
second table has no row; exact: the last finding lies across the end of the stretch, and the first table has just the rows that are
wanted. ratios: the time of the call divided by that of the listing, by the medians and by the best; at most 1.2 is wanted.";

/// The text above the table of every call.
const CALLS: &str = "\
Every call on a message of 48 bytes and on 64 KiB of mixed text, under the default policy: nanoseconds, the best of the
rounds, and the ratio to formatting the same text. No table and no output is too short.";

/// Formatting beside the crate's, the standard library's test of a text, and a copy.
pub fn formatting(inputs: &[&Input], rounds: usize) -> Result<(), String> {
    println!(
        "{rounds} rounds in turns, or at least {FEWEST} where they take long; processor time."
    );
    println!("{FORMATTING}");
    println!(
        "{:<11} {:>8} {:>15} {:>15} {:>7} {:>7} {:>7} {:>15} {:>15} {:>13}",
        "input",
        "findings",
        "crate",
        "library",
        "ratio",
        "best",
        "wanted",
        "from_utf8",
        "copy",
        "of from_utf8"
    );
    for input in inputs {
        let text = input.make(LENGTH);
        let (work, mut buffers) = Work::new(input, &text);
        work.compare(&mut buffers)?;
        let [by_crate, ours, tested, copied] = interleaved(rounds, |number| match number {
            0 => work.format_by_the_crate(),
            1 => work.format(&mut buffers),
            2 => work.test(),
            _ => work.copy(&mut buffers),
        });
        let wanted = input
            .wanted
            .map_or(String::new(), |wanted| format!("{wanted:.1}"));
        println!(
            "{:<11} {:>8} {:>15} {:>15} {:>7.2} {:>7.2} {:>7} {:>15} {:>15} {:>13.2}",
            input.name,
            work.findings,
            speed(text.len(), by_crate),
            speed(text.len(), ours),
            by_crate.median / ours.median,
            by_crate.best / ours.best,
            wanted,
            speed(text.len(), tested),
            speed(text.len(), copied),
            ours.median / tested.median,
        );
    }
    Ok(())
}

/// Listing beside the crate's scan and analysis; mending beside a listing and a copy.
pub fn listing(inputs: &[&Input], rounds: usize) -> Result<(), String> {
    println!("\n{LISTING}");
    println!(
        "{:<11} {:>8} {:>15} {:>15} {:>7} {:>7} {:>12} {:>12}",
        "input", "findings", "crate", "library", "ratio", "best", "mend first", "mend last"
    );
    for input in inputs {
        let text = input.make(LENGTH);
        let (work, mut buffers) = Work::new(input, &text);
        work.compare(&mut buffers)?;
        let [by_crate, ours, copied, first, last] = interleaved(rounds, |number| match number {
            0 => work.list_by_the_crate(),
            1 => work.list(&mut buffers),
            2 => work.copy(&mut buffers),
            3 => work.mend(0, &mut buffers),
            _ => work.mend(1, &mut buffers),
        });
        let mend = |times: Times| match work.can_be_mended() {
            true => format!("{:.2}", times.median / (ours.median + copied.median)),
            false => String::new(),
        };
        println!(
            "{:<11} {:>8} {:>15} {:>15} {:>7.2} {:>7.2} {:>12} {:>12}",
            input.name,
            work.findings,
            speed(text.len(), by_crate),
            speed(text.len(), ours),
            by_crate.median / ours.median,
            by_crate.best / ours.best,
            mend(first),
            mend(last),
        );
    }
    Ok(())
}

/// Taking texts in, as they are and damaged, beside the standard library.
pub fn repairing(inputs: &[&Input], rounds: usize) -> Result<(), String> {
    println!("\n{REPAIRING}");
    println!(
        "{:<11} {:>8} {:>15} {:>15} {:>15} {:>13} {:>13} {:>7}",
        "input", "bad", "lossy", "room", "exact", "ratio, room", "ratio, exact", "wanted"
    );
    let ratios = |lossy: Times, ours: Times| {
        let (median, best) = (lossy.median / ours.median, lossy.best / ours.best);
        format!("{median:.2} ({best:.2})")
    };
    for input in inputs.iter().filter(|input| input.message.is_none()) {
        let text = input.make(LENGTH);
        for (one_in, wanted) in [(None, 0.8), (Some(BAD_ONE_IN), 1.0)] {
            let mut work = Repairing::new(&text, one_in)?;
            let [lossy, room, exact] = interleaved(rounds, |number| match number {
                0 => work.by_std(),
                1 => work.with_room(),
                _ => work.exactly(),
            });
            println!(
                "{:<11} {:>8} {:>15} {:>15} {:>15} {:>13} {:>13} {wanted:>7.1}",
                input.name,
                work.bad,
                speed(work.bytes(), lossy),
                speed(work.bytes(), room),
                speed(work.bytes(), exact),
                ratios(lossy, room),
                ratios(lossy, exact),
            );
        }
    }
    Ok(())
}

/// A thread in pieces, beside one call on the whole of it.
pub fn feeding(inputs: &[&Input], rounds: usize) -> Result<(), String> {
    println!("\n{FEEDING}");
    println!(
        "{:<11} {:>15} {:>15} {:>15} {:>7} {:>7} {:>7} {:>7}",
        "input", "one call", "4 KiB", "64 bytes", "ratio", "best", "64", "best"
    );
    for input in inputs.iter().filter(|input| input.message.is_none()) {
        let thread = input.make(LENGTH);
        let mut work = Feeding::new(input, &thread)?;
        for length in PIECES {
            work.compare(length)?;
        }
        let [whole, long, short] = interleaved(rounds, |number| match number {
            0 => {
                work.whole();
            }
            _ => work.pieces(PIECES[number - 1], |_| ()),
        });
        println!(
            "{:<11} {:>15} {:>15} {:>15} {:>7.2} {:>7.2} {:>7.2} {:>7.2}",
            input.name,
            speed(thread.len(), whole),
            speed(thread.len(), long),
            speed(thread.len(), short),
            whole.median / long.median,
            whole.best / long.best,
            whole.median / short.median,
            whole.best / short.best,
        );
    }
    Ok(())
}

/// The memberships that decide a text, beside formatting it.
pub fn tipping(inputs: &[&Input], rounds: usize) -> Result<(), String> {
    println!("\n{TIPPING}");
    println!(
        "{:<11} {:>15} {:>15} {:>7} {:>7}",
        "input", "format", "tips", "ratio", "best"
    );
    for input in inputs.iter().filter(|input| input.message.is_none()) {
        let text = input.make(LENGTH);
        let (work, mut buffers) = Work::new(input, &text);
        let mut table = Work::tip_table();
        let [formatted, tips] = interleaved(rounds, |number| match number {
            0 => work.format(&mut buffers),
            _ => work.tips(&mut table),
        });
        println!(
            "{:<11} {:>15} {:>15} {:>7.2} {:>7.2}",
            input.name,
            speed(text.len(), formatted),
            speed(text.len(), tips),
            tips.median / formatted.median,
            tips.best / formatted.best,
        );
    }
    Ok(())
}

/// Stretches and the nearest finding, beside a listing.
pub fn near(inputs: &[&Input], rounds: usize) -> Result<(), String> {
    println!("\n{NEAR}");
    println!(
        "{:<11} {:>8} {:>15} {:>13} {:>13} {:>13} {:>13} {:>13} {:>13}",
        "input", "findings", "list", "whole", "middle", "first", "counted", "exact", "nearest"
    );
    for input in inputs.iter().filter(|input| input.message.is_none()) {
        let text = input.make(LENGTH);
        let mut work = Near::new(input, &text);
        work.compare()?;
        let [list, rest @ ..]: [Times; 7] = interleaved(rounds, |number| {
            match number {
                0 => work.list(),
                1 => work.whole(),
                2 => work.middle(),
                3 => work.first(),
                4 => work.counted(),
                5 => work.exact(),
                _ => work.nearest(),
            };
        });
        let ratios = |times: Times| {
            let (median, best) = (times.median / list.median, times.best / list.best);
            format!("{median:.2} ({best:.2})")
        };
        let [whole, middle, first, counted, exact, nearest] = rest.map(ratios);
        println!(
            "{:<11} {:>8} {:>15} {whole:>13} {middle:>13} {first:>13} {counted:>13} {exact:>13} {nearest:>13}",
            input.name,
            work.findings,
            speed(text.len(), list),
        );
    }
    Ok(())
}

/// Every call on a message of 48 bytes and on a text of 64 KiB, beside formatting it.
pub fn calls(input: &Input, rounds: usize) {
    println!("\n{CALLS}");
    println!(
        "{:<36} {:>9} {:>9} {:>11} {:>9}",
        "call", "48 bytes", "ratio", "64 KiB", "ratio"
    );
    let [short, long] = [(48, 4096), (1 << 16, 4)].map(|(length, times)| {
        let text = input.make(length);
        let mut each = Each::new(text.as_bytes());
        let measured: [Times; NAMES.len()] = interleaved(rounds, |number| {
            for _ in 0..times {
                each.call(number);
            }
        });
        measured.map(|time| 1e9 * time.best / f64::from(times))
    });
    for (number, name) in NAMES.into_iter().enumerate() {
        let (here, there) = (short[number], long[number]);
        println!(
            "{name:<36} {here:>9.1} {:>9.2} {there:>11.1} {:>9.2}",
            here / short[0],
            there / long[0]
        );
    }
}

/// The cost of a byte at three lengths: it stays the same where the time grows as the length does.
pub fn growth(inputs: &[&Input], rounds: usize) {
    println!("\nNanoseconds per byte at 64 KiB, 1 MiB and 16 MiB, the best of the rounds.");
    println!(
        "{:<11} {:>26} {:>26} {:>26}",
        "input", "format", "list", "mend last"
    );
    for input in inputs {
        let mut costs = [const { String::new() }; 3];
        for length in LENGTHS {
            let text = input.make(length);
            let (work, mut buffers) = Work::new(input, &text);
            // A long text has fewer rounds.
            let rounds = rounds.min(2 + (rounds << 20) / length);
            let times: [Times; 3] = interleaved(rounds, |number| match number {
                0 => work.format(&mut buffers),
                1 => work.list(&mut buffers),
                _ => work.mend(1, &mut buffers),
            });
            for (cost, times) in costs.iter_mut().zip(times) {
                cost.push_str(&format!(" {:>8.3}", 1e9 * times.best / text.len() as f64));
            }
            if !work.can_be_mended() {
                costs[2].clear();
            }
        }
        let [format, list, mend] = costs;
        println!("{:<11} {format:>26} {list:>26} {mend:>26}", input.name);
    }
}

/// Bytes in a time as MB/s, and the best.
fn speed(bytes: usize, times: Times) -> String {
    let speed = |seconds: f64| bytes as f64 / seconds / 1e6;
    format!("{:.0} ({:.0})", speed(times.median), speed(times.best))
}
