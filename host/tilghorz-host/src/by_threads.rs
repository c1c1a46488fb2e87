//! One text formatted by several threads, each of which formats parts of it.
//!
//! The parts formatted and joined are the text formatted: the theorem `EveryListOfParts` of crates/cutting.

use std::borrow::Cow;
use std::ops::Range;

use tilghorz::{LONGEST_TEXT, Policy, Refusal};

use crate::in_order::in_order;
use crate::threads::Threads;

/// The least length of a part, if a cut is allowed there. A text that is not twice as long is formatted by one thread.
const PART: usize = 1 << 19;
/// How many parts there are for each thread, so that all threads end at nearly the same time. Longer parts need fewer buffers.
const PARTS: usize = 4;

/// A stretch of a formatted text.
#[derive(Debug, PartialEq, Eq)]
pub enum Stretch {
    /// These bytes of the text, as they are.
    Same(Range<usize>),
    /// These bytes.
    New(Vec<u8>),
}

/// The formatted text in stretches that follow each other, or nothing if the text needs no change. The result and the refusal
/// are those of one call on the whole text, for each number of threads.
pub fn format(
    text: &[u8],
    policy: &Policy,
    threads: &Threads,
) -> Result<Option<Vec<Stretch>>, Refusal> {
    let most = if text.len() <= LONGEST_TEXT {
        text.len() / PART
    } else {
        1
    };
    let others = threads.take(most.saturating_sub(1));
    if others.number() > 0 {
        let number = others.number() + 1;
        let length = text.len() / (PARTS * number);
        return in_parts(text, policy, number, length.max(PART));
    }
    Ok(match tilghorz::format(text, policy)? {
        Cow::Borrowed(_) => None,
        Cow::Owned(bytes) => Some(vec![Stretch::New(bytes)]),
    })
}

/// The same in parts of this length.
fn in_parts(
    text: &[u8],
    policy: &Policy,
    threads: usize,
    length: usize,
) -> Result<Option<Vec<Stretch>>, Refusal> {
    let (mut parts, mut end) = (tilghorz::parts(text, length), 0);
    let next = || {
        let part = parts.next()?;
        let start = end;
        end += part.len();
        Some((start, part))
    };
    let one = |(start, part): (usize, &[u8])| match tilghorz::format(part, policy) {
        Ok(Cow::Borrowed(_)) => Ok(Stretch::Same(start..start + part.len())),
        Ok(Cow::Owned(bytes)) => Ok(Stretch::New(bytes)),
        Err(Refusal::NotWellFormed { valid_up_to }) => Err(Refusal::NotWellFormed {
            valid_up_to: start + valid_up_to,
        }),
        Err(refusal) => Err(refusal),
    };
    let mut formatted = Ok(Vec::new());
    in_order(threads, next, one, |result| {
        match (result, &mut formatted) {
            (Ok(stretch), Ok(stretches)) => stretches.push(stretch),
            (Err(refusal), _) => formatted = Err(refusal),
            (_, Err(_)) => {}
        }
        formatted.is_ok()
    });
    let is_new = |stretch: &Stretch| matches!(stretch, Stretch::New(_));
    formatted.map(|stretches| stretches.iter().any(is_new).then_some(stretches))
}

#[cfg(test)]
mod tests {
    use std::num::NonZero;

    use super::*;

    /// What one call gives.
    fn whole(text: &[u8], policy: &Policy) -> Result<Vec<u8>, Refusal> {
        tilghorz::format(text, policy).map(Cow::into_owned)
    }

    /// The stretches joined.
    fn joined(text: &[u8], stretches: Option<Vec<Stretch>>) -> Vec<u8> {
        let Some(stretches) = stretches else {
            return text.to_vec();
        };
        let mut joined = Vec::new();
        for stretch in stretches {
            match stretch {
                Stretch::Same(range) => joined.extend_from_slice(&text[range]),
                Stretch::New(bytes) => joined.extend(bytes),
            }
        }
        joined
    }

    const MESSAGE: &str = "I \u{2764} it 1\u{20E3} \u{1F468}\u{200D}\u{1F469} \u{1F1E6}\u{1F1FF}\u{FE0F} \u{231A}\u{FE0E}\u{FE0F} ";

    #[test]
    fn each_number_of_threads_gives_what_one_call_gives() {
        let policy = Policy::default();
        let mut text = MESSAGE.repeat(10).into_bytes();
        for at in 0..text.len() {
            // A text that is damaged at each place, and at last one that is not.
            let kept = text[at];
            text[at] = 0xC0;
            for (threads, length) in [(2, 7), (3, 64), (5, 1)] {
                let found = in_parts(&text, &policy, threads, length);
                let found = found.map(|stretches| joined(&text, stretches));
                assert_eq!(found, whole(&text, &policy), "{at} {threads} {length}");
            }
            text[at] = kept;
        }
        for threads in 1..9 {
            let found = in_parts(&text, &policy, threads, 11).expect("a text");
            assert_eq!(joined(&text, found), whole(&text, &policy).expect("a text"));
        }
    }

    #[test]
    fn a_text_that_needs_no_change_has_no_stretches() {
        let policy = Policy::default();
        let text = whole(MESSAGE.as_bytes(), &policy).expect("a text");
        assert_eq!(in_parts(&text, &policy, 3, 5), Ok(None));
        assert_eq!(in_parts(b"", &policy, 3, 5), Ok(None));
    }

    #[test]
    fn a_big_text_takes_free_threads_and_gives_them_back() {
        let (policy, threads) = (Policy::default(), Threads::new(NonZero::new(3)));
        let _own = threads.take(1);
        let text = MESSAGE.repeat(6 * PART / MESSAGE.len()).into_bytes();
        let found = format(&text, &policy, &threads).expect("a text");
        assert!(found.as_ref().is_some_and(|stretches| stretches.len() >= 5));
        assert!(joined(&text, found) == whole(&text, &policy).expect("a text"));
        assert_eq!(threads.take(usize::MAX).number(), 2);
        let cut = tilghorz::cut(&text, PART).expect("a cut");
        let found = format(&text[..cut], &policy, &threads).expect("a text");
        assert!(found.is_some_and(|stretches| stretches.len() == 1));
        let too_long = vec![b'a'; LONGEST_TEXT + 1];
        assert_eq!(
            format(&too_long, &policy, &threads),
            Err(Refusal::TextTooLong)
        );
    }

    /// Run by hand, for docs/PERFORMANCE.md: the text in the file TEXT by one call, in parts by one thread, and by two, in turns.
    #[test]
    #[ignore = "a measurement"]
    fn two_threads_are_measured() {
        let name = std::env::var_os("TEXT").expect("TEXT names a file");
        let text = std::fs::read(name).expect("a text");
        let (policy, alone) = (Policy::default(), Threads::new(NonZero::new(1)));
        let _own = alone.take(1);
        let mut times = [Vec::new(), Vec::new(), Vec::new()];
        for _ in 0..31 {
            for (threads, times) in times.iter_mut().enumerate() {
                let start = std::time::Instant::now();
                let formatted = match threads {
                    0 => format(&text, &policy, &alone),
                    _ => in_parts(&text, &policy, threads, text.len() / (PARTS * 2)),
                };
                drop(formatted.expect("a text"));
                times.push(start.elapsed().as_secs_f64());
            }
        }
        for times in &mut times {
            times.sort_by(f64::total_cmp);
        }
        let [call, one, two] = times.each_ref().map(|times| 1e3 * times[times.len() / 2]);
        println!(
            "one call: {call:.1} ms; parts by one thread: {one:.1}, by two: {two:.1}; medians of 31"
        );
    }
}
