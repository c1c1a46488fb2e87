//! What differs between a text and the new one, for a person.
//!
//! Neither formatting nor repairing touches a line feed, so each line of a text stands against the line of the same number.

use std::collections::VecDeque;
use std::io::{self, Write};

use crate::visible;

/// How many equal lines are written before and after a difference.
const CONTEXT: usize = 3;

/// A line of the text, and the line of the new one.
type Pair<'a> = (&'a [u8], &'a [u8]);

/// What stands before parts of a diff and after them: colours, or nothing.
struct Style {
    names: &'static str,
    place: &'static str,
    old: &'static str,
    new: &'static str,
    plain: &'static str,
}

/// Colours.
const COLOURED: Style = Style {
    names: "\x1B[1m",
    place: "\x1B[36m",
    old: "\x1B[31m",
    new: "\x1B[32m",
    plain: "\x1B[0m",
};

/// No colours.
const PLAIN: Style = Style {
    names: "",
    place: "",
    old: "",
    new: "",
    plain: "",
};

/// Writes a unified diff of two texts with equal numbers of lines. What is invisible is shown by code points.
pub fn write(
    name: &str,
    old: &[u8],
    new: &[u8],
    is_coloured: bool,
    out: &mut dyn Write,
) -> io::Result<()> {
    let style = if is_coloured { &COLOURED } else { &PLAIN };
    let Style { names, plain, .. } = style;
    writeln!(out, "{names}--- {name}{plain}\n{names}+++ {name}{plain}")?;
    // The equal lines before this one, those of the hunk, and how many of its last lines are equal.
    let (mut before, mut hunk, mut equal) = (VecDeque::new(), Vec::new(), 0);
    let mut next = 1;
    for pair in lines(old).zip(lines(new)) {
        next += 1;
        let is_equal = pair.0 == pair.1;
        if hunk.is_empty() && is_equal {
            before.push_back(pair);
            if before.len() > CONTEXT {
                before.pop_front();
            }
            continue;
        }
        hunk.extend(before.drain(..));
        hunk.push(pair);
        equal = if is_equal { equal + 1 } else { 0 };
        if equal > 2 * CONTEXT {
            before.extend(&hunk[hunk.len() - CONTEXT..]);
            write_hunk(next, hunk, equal, style, out)?;
            (hunk, equal) = (Vec::new(), 0);
        }
    }
    write_hunk(next, hunk, equal, style, out)
}

/// The lines of a text, with their ends.
fn lines(text: &[u8]) -> impl Iterator<Item = &[u8]> {
    text.split_inclusive(|byte| *byte == b'\n')
}

/// Writes the lines up to, not including, the one of a number, the last of which are equal. Of these some are left out.
fn write_hunk(
    next: usize,
    mut hunk: Vec<Pair<'_>>,
    equal: usize,
    style: &Style,
    out: &mut dyn Write,
) -> io::Result<()> {
    if hunk.is_empty() {
        return Ok(());
    }
    let first = next - hunk.len();
    hunk.truncate(hunk.len() - equal.saturating_sub(CONTEXT));
    let Style { place, plain, .. } = style;
    let span = match hunk.len() {
        1 => format!("{first}"),
        length => format!("{first},{length}"),
    };
    writeln!(out, "{place}@@ -{span} +{span} @@{plain}")?;
    for run in hunk.chunk_by(|one, other| (one.0 == one.1) == (other.0 == other.1)) {
        if run[0].0 == run[0].1 {
            run.iter()
                .try_for_each(|(line, _)| write_line(' ', line, "", "", out))?;
        } else {
            let Style { old, new, .. } = style;
            run.iter()
                .try_for_each(|(line, _)| write_line('-', line, old, plain, out))?;
            run.iter()
                .try_for_each(|(_, line)| write_line('+', line, new, plain, out))?;
        }
    }
    Ok(())
}

/// Writes a line.
fn write_line(
    sign: char,
    line: &[u8],
    colour: &str,
    plain: &str,
    out: &mut dyn Write,
) -> io::Result<()> {
    writeln!(out, "{colour}{sign}{}{plain}", visible::line(line))?;
    if line.ends_with(b"\n") {
        return Ok(());
    }
    writeln!(out, "\\ No newline at end of file")
}

#[cfg(test)]
mod tests {
    use super::*;

    fn diff(old: &[u8], new: &[u8], is_coloured: bool) -> String {
        let mut out = Vec::new();
        write("file", old, new, is_coloured, &mut out).expect("written");
        String::from_utf8(out).expect("a text")
    }

    #[test]
    fn lines_that_differ_are_written_with_those_around() {
        let old = "1\n2\n3\n4\n5\u{FE0E}\n6\n7\n8\n9\n10\n11\n12\n13\u{FE0E}\n14\u{FE0E}";
        let new = old.replace('\u{FE0E}', "");
        let expected = "--- file\n+++ file\n@@ -2,7 +2,7 @@\n 2\n 3\n 4\n-5<FE0E>\n+5\n 6\n 7\n 8\n\
                        @@ -10,5 +10,5 @@\n 10\n 11\n 12\n-13<FE0E>\n-14<FE0E>\n\\ No newline at end of file\n\
                        +13\n+14\n\\ No newline at end of file\n";
        assert_eq!(diff(old.as_bytes(), new.as_bytes(), false), expected);
    }

    #[test]
    fn differences_that_are_near_are_one_hunk() {
        let text = |equal: usize| format!("a\u{FE0F}\n{}a\u{FE0F}\n", "b\n".repeat(equal));
        for (equal, hunks) in [(0, 1), (1, 1), (6, 1), (7, 2), (20, 2)] {
            let old = text(equal);
            let written = diff(
                old.as_bytes(),
                old.replace('\u{FE0F}', "").as_bytes(),
                false,
            );
            assert_eq!(written.matches("@@ -").count(), hunks, "{written}");
        }
        let one = diff("\u{A9}\n".as_bytes(), "\u{A9}\u{FE0E}\n".as_bytes(), false);
        assert_eq!(
            one,
            "--- file\n+++ file\n@@ -1 +1 @@\n-\u{A9}\n+\u{A9}<FE0E>\n"
        );
    }

    #[test]
    fn bad_bytes_and_line_ends_are_readable() {
        let written = diff(b"a\xE2\x9D\r\n", "a\u{FFFD}\r\n".as_bytes(), true);
        assert!(written.contains("\n\x1B[31m-a<E2><9D>\x1B[0m\n\x1B[32m+a\u{FFFD}\x1B[0m\n"));
    }
}
