//! A text as `show` shows it: lines with their numbers, windows of long lines, marks under the findings, and what is said of each.

use std::collections::VecDeque;
use std::io::{self, Write};
use std::ops::Range;

use tilghorz::{Finding, Policy};

use crate::findings::{self, Findings};
use crate::visible::{self, Shown};

/// Which lines of a text are shown.
#[derive(Debug, Clone, Copy, PartialEq, Eq)]
pub enum Extent {
    /// Those with findings, and this number of lines before and after each.
    Around(usize),
    /// All.
    All,
}

/// What stands before and after the parts of a line: colours, or nothing.
pub struct Style {
    /// Before a line's number.
    faint: &'static str,
    /// Before a character that is shown by its code point.
    code_point: &'static str,
    /// Before the marks of findings.
    mark: &'static str,
    /// After each.
    plain: &'static str,
}

/// Colours.
pub const COLOURED: Style = Style {
    faint: "\x1B[2m",
    code_point: "\x1B[36m",
    mark: "\x1B[33m",
    plain: "\x1B[0m",
};

/// No colours.
pub const PLAIN: Style = Style {
    faint: "",
    code_point: "",
    mark: "",
    plain: "",
};

/// A line with more columns than these is shown in windows.
const LONG: usize = 160;
/// The columns of a window.
const WINDOW: usize = 120;
/// The columns before the first finding of a window.
const BEFORE: usize = 40;
/// The columns that a window may have more, where it would end inside a finding.
const MORE: usize = 60;
/// What stands where a line is cut.
const CUT: &str = "...";

/// A text and where it is shown.
pub struct View<'a> {
    /// The text.
    pub text: &'a str,
    /// The policy.
    pub policy: &'a Policy,
    /// Colours, or none.
    pub style: &'a Style,
    /// Where it is written.
    pub out: &'a mut dyn Write,
}

/// A line of a text.
#[derive(Clone)]
pub struct Line<'a> {
    /// Its number, from 1.
    pub number: usize,
    /// Where it starts.
    pub start: usize,
    /// Where the next line starts.
    pub end: usize,
    /// It, without the line feed, and without the carriage return before that.
    pub shown: &'a str,
}

/// The lines of a text.
pub fn lines(text: &str) -> impl Iterator<Item = Line<'_>> {
    let mut end = 0;
    text.split_inclusive('\n')
        .zip(1..)
        .map(move |(line, number)| {
            let start = end;
            end += line.len();
            let shown = line.strip_suffix("\r\n").or(line.strip_suffix('\n'));
            Line {
                number,
                start,
                end,
                shown: shown.unwrap_or(line),
            }
        })
}

impl View<'_> {
    /// Writes the lines that are to be shown, with their findings.
    pub fn write(&mut self, findings: &mut Findings<'_>, extent: Extent) -> io::Result<()> {
        match extent {
            Extent::All => {
                lines(self.text).try_for_each(|line| self.write_line(&line, true, findings))
            }
            Extent::Around(context) => self.write_around(findings, context),
        }
    }

    /// Writes the lines with findings, and some lines around them.
    fn write_around(&mut self, findings: &mut Findings<'_>, context: usize) -> io::Result<()> {
        // The last lines before this one that are not written, and how many are to be written after one with findings.
        let (mut before, mut after) = (VecDeque::new(), 0);
        // The number of the line after the last one that was written.
        let mut next = 1;
        for line in lines(self.text) {
            let first = findings.peek().map(|finding| finding.start);
            if first.is_none() && after == 0 {
                return Ok(());
            }
            if first.is_some_and(|first| first < line.end) {
                if context > 0 && next > 1 && next + before.len() < line.number {
                    let Style { faint, plain, .. } = self.style;
                    writeln!(self.out, "{faint}   {CUT} |{plain}")?;
                }
                for line in before.drain(..) {
                    self.write_beginning(&line)?;
                }
                self.write_line(&line, !is_long(line.shown), findings)?;
                (next, after) = (line.number + 1, context);
            } else if after > 0 {
                self.write_beginning(&line)?;
                (next, after) = (line.number + 1, after - 1);
            } else {
                before.push_back(line);
                if before.len() > context {
                    before.pop_front();
                }
            }
        }
        Ok(())
    }

    /// Writes a line without findings. Only the beginning of a long one is written.
    fn write_beginning(&mut self, line: &Line<'_>) -> io::Result<()> {
        let whole = line.shown.len();
        let end = if is_long(line.shown) {
            forward(line.shown, 0, WINDOW)
        } else {
            whole
        };
        self.write_window(line, 0..end, &[])
    }

    /// Writes a line with its findings: the whole line, or windows around the findings. A long line is written in windows
    /// also if it is written whole.
    fn write_line(
        &mut self,
        line: &Line<'_>,
        is_whole: bool,
        findings: &mut Findings<'_>,
    ) -> io::Result<()> {
        let columns = if is_long(line.shown) {
            WINDOW
        } else {
            usize::MAX
        };
        // Where the last window ended, and the finding that it cut.
        let (mut last, mut cut) = (None, None);
        loop {
            let shown = last.unwrap_or(0);
            let first = findings.peek().filter(|finding| finding.start < line.end);
            let start = match first {
                Some(first) if !is_whole => {
                    back(line.shown, first.start - line.start, BEFORE).max(shown)
                }
                _ if is_whole && (shown < line.shown.len() || last.is_none()) => shown,
                _ => return Ok(()),
            };
            let mut end = forward(line.shown, start, columns);
            let mut found = Vec::from_iter(cut.take());
            let old = found.len();
            while let Some(finding) = findings.next_before(line.start + end) {
                found.push(finding);
            }
            let inside = found.last().map(|finding| finding.end - line.start);
            if let Some(inside) = inside.filter(|inside| *inside > end) {
                end = forward(line.shown, end, MORE).min(inside);
            }
            self.write_window(line, start..end, &found)?;
            for finding in &found[old..] {
                self.write_finding(finding)?;
            }
            cut = found.pop().filter(|finding| finding.end > line.start + end);
            last = Some(end);
        }
    }

    /// Writes a window of a line, and the marks of its findings under it.
    fn write_window(
        &mut self,
        line: &Line<'_>,
        window: Range<usize>,
        findings: &[Finding],
    ) -> io::Result<()> {
        let (mut shown, mut marks, mut column) = (String::new(), String::new(), 0);
        let mut rest = findings;
        if window.start > 0 {
            shown.push_str(CUT);
            marks.extend(CUT.chars().map(|_| ' '));
        }
        for (index, character) in line.shown[window.clone()].char_indices() {
            let mark = mark_at(line.start + window.start + index, &mut rest);
            let at = shown.len();
            let Shown {
                columns,
                by_code_point,
            } = visible::push(character, column, &mut shown);
            if by_code_point {
                shown.insert_str(at, self.style.code_point);
                shown.push_str(self.style.plain);
            }
            let further = if mark == '^' { '~' } else { mark };
            marks.extend((0..columns).map(|column| if column == 0 { mark } else { further }));
            column += columns;
        }
        if window.end < line.shown.len() {
            shown.push_str(CUT);
        }
        let Style {
            faint, mark, plain, ..
        } = self.style;
        writeln!(self.out, "{faint}{:>6} |{plain} {shown}", line.number)?;
        if !findings.is_empty() {
            let marks = marks.trim_end();
            writeln!(self.out, "{faint}       |{plain} {mark}{marks}{plain}")?;
        }
        Ok(())
    }

    /// Writes what was found, and what formatting makes of it.
    fn write_finding(&mut self, finding: &Finding) -> io::Result<()> {
        let Finding { start, end, .. } = finding;
        let Style { faint, plain, .. } = self.style;
        let what = findings::in_words(&finding.counts);
        write!(
            self.out,
            "{faint}       |{plain} bytes {start} to {end}: {what}"
        )?;
        let replacement = findings::replacement(finding, self.text.as_bytes(), self.policy);
        match replacement {
            Some(replacement) => writeln!(self.out, "; {}", findings::becomes(&replacement)),
            None => writeln!(self.out),
        }
    }
}

/// Whether a line is long.
fn is_long(line: &str) -> bool {
    forward(line, 0, LONG) < line.len()
}

/// The offset that is a number of columns after another.
fn forward(line: &str, from: usize, columns: usize) -> usize {
    let mut left = columns;
    for (index, character) in line[from..].char_indices() {
        match left.checked_sub(visible::room(character)) {
            Some(less) => left = less,
            None => return from + index,
        }
    }
    line.len()
}

/// The offset that is a number of columns before another.
fn back(line: &str, from: usize, columns: usize) -> usize {
    let (mut left, mut start) = (columns, from);
    for (index, character) in line[..from].char_indices().rev() {
        match left.checked_sub(visible::room(character)) {
            Some(less) => (left, start) = (less, index),
            None => break,
        }
    }
    start
}

/// The mark of a byte: `^` where a finding starts, `~` inside one. Findings that end before it are taken off the front.
fn mark_at(offset: usize, findings: &mut &[Finding]) -> char {
    while let Some((first, rest)) = findings.split_first()
        && first.end <= offset
    {
        *findings = rest;
    }
    match findings.first() {
        Some(finding) if finding.start == offset => '^',
        Some(finding) if finding.start < offset => '~',
        _ => ' ',
    }
}

#[cfg(test)]
mod tests {
    use super::*;

    /// A text as it is shown.
    fn shown(text: &str, extent: Extent, style: &Style) -> String {
        let policy = Policy::default();
        let mut findings = Findings::of(text.as_bytes(), &policy).expect("a text");
        let mut out = Vec::new();
        let mut view = View {
            text,
            policy: &policy,
            style,
            out: &mut out,
        };
        view.write(&mut findings, extent).expect("written");
        String::from_utf8(out).expect("a text")
    }

    #[test]
    fn findings_are_marked_under_the_line() {
        let expected = "     1 | 1<FE0E> \u{2764}\u{A9}.
       | ^~~~~~~ ^^
       | bytes 0 to 4: 1 policy-redundant; becomes 1
       | bytes 5 to 8: 1 decision; becomes \u{2764}<FE0E>
       | bytes 8 to 10: 1 decision; becomes \u{A9}<FE0E>
";
        let text = "1\u{FE0E} \u{2764}\u{A9}.";
        for extent in [Extent::All, Extent::Around(0), Extent::Around(1)] {
            assert_eq!(shown(text, extent, &PLAIN), expected);
        }
    }

    #[test]
    fn colours_stand_around_code_points_and_marks() {
        let text = shown("a\u{FE0F}", Extent::All, &COLOURED);
        assert!(text.contains("a\x1B[36m<FE0F>\x1B[0m\n"), "{text:?}");
        assert!(text.contains(" \x1B[33m ^~~~~~\x1B[0m\n"), "{text:?}");
        assert!(
            text.contains("1 unsanctioned; becomes nothing\n"),
            "{text:?}"
        );
    }

    /// The lines of what is shown that have a number, each up to its end.
    fn numbered(shown: &str) -> Vec<&str> {
        let has_number = |line: &&str| line[..6].trim() != "";
        shown
            .lines()
            .filter(has_number)
            .map(str::trim_start)
            .collect()
    }

    #[test]
    fn only_lines_with_findings_are_shown_and_some_around_them() {
        let text = "a\nb\n\u{A9}\nc\nd\ne\nf\n\u{A9}\ng\n\n\u{A9}";
        let lines = |extent| {
            let shown = shown(text, extent, &PLAIN);
            numbered(&shown).join("; ")
        };
        assert_eq!(
            lines(Extent::Around(0)),
            "3 | \u{A9}; 8 | \u{A9}; 11 | \u{A9}"
        );
        assert_eq!(
            lines(Extent::Around(1)),
            "2 | b; 3 | \u{A9}; 4 | c; ... |; 7 | f; 8 | \u{A9}; 9 | g; 10 | ; 11 | \u{A9}"
        );
        let all = "1 | a; 2 | b; 3 | \u{A9}; 4 | c; 5 | d; 6 | e; 7 | f; 8 | \u{A9}; 9 | g; 10 | ; 11 | \u{A9}";
        assert_eq!(lines(Extent::All), all);
        assert_eq!(lines(Extent::Around(2)), all);
        assert_eq!(shown("plain\n", Extent::Around(9), &PLAIN), "");
        assert_eq!(shown("", Extent::All, &PLAIN), "");
    }

    #[test]
    fn the_end_of_a_line_is_not_shown() {
        let shown = shown("a\r\n\r\nb\rc\r\n", Extent::All, &PLAIN);
        assert_eq!(numbered(&shown), ["1 | a", "2 | ", "3 | b<000D>c"]);
    }

    #[test]
    fn a_long_line_is_shown_as_windows() {
        let plain = "x".repeat(200);
        let text = format!("{plain}\u{A9}{plain}\u{A9}\u{A9}{plain}");
        let around = shown(&text, Extent::Around(0), &PLAIN);
        let (before, after) = ("x".repeat(40), "x".repeat(79));
        let first = format!(
            "     1 | ...{before}\u{A9}{after}...\n       |    {}^\n",
            " ".repeat(40)
        );
        assert!(around.starts_with(&first), "{around}");
        let second = format!("     1 | ...{before}\u{A9}\u{A9}{}...\n", &after[1..]);
        assert!(around.contains(&second), "{around}");
        assert_eq!(around.matches(" 1 decision").count(), 3);
        let all = shown(&text, Extent::All, &PLAIN);
        assert_eq!(numbered(&all).len(), 6);
        assert_eq!(all.matches('x').count(), 600);
        assert_eq!(all.matches(" 1 decision").count(), 3);
    }

    #[test]
    fn a_long_finding_is_cut() {
        let text = format!("a{}b", "\u{FE0F}".repeat(1000));
        let around = shown(&text, Extent::Around(0), &PLAIN);
        assert_eq!(numbered(&around).len(), 1);
        assert!(around.lines().all(|line| line.len() < 200), "{around}");
        assert!(around.contains("bytes 1 to 3001: 1000 unsanctioned; becomes nothing\n"));
        let all = shown(&text, Extent::All, &PLAIN);
        assert_eq!(all.matches("<FE0F>").count(), 1000);
        assert_eq!(all.matches("unsanctioned").count(), 1);
        assert_eq!(all.matches('^').count(), 1);
        assert_eq!(all.matches('~').count(), 5999);
    }
}
