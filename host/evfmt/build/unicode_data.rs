//! The tables that `unicode.rs` includes, read from the two published data files.
//!
//! This reader shares nothing with the generator of the port's tables, on purpose: the comparison would not
//! see a fault that both have. It is strict. Each file must name its version, give its entries in ascending
//! order, hold as many of them as it says, and reach its end mark.

use std::fmt::Write;

/// The file of the properties.
pub const EMOJI_DATA: &str = "emoji-data.txt";
/// The file of the variation sequences.
pub const VARIATION_SEQUENCES: &str = "emoji-variation-sequences.txt";

/// The regional indicators, which no line of the two files names.
const REGIONAL_INDICATORS: Range = ('\u{1F1E6}', '\u{1F1FF}');

/// The last line of each file.
const END_MARK: &str = "#EOF";
/// What stands before the version in each file.
const VERSION_MARK: &str = "# Used with Emoji Version ";
/// What stands before the number of code points of a property, after its lines.
const PROPERTY_TOTAL_MARK: &str = "# Total elements: ";
/// What stands before the number of bases, after the variation sequences.
const BASES_TOTAL_MARK: &str = "#Total sequences: ";

/// A first and a last code point.
type Range = (char, char);

/// What `unicode.rs` wants, and the version that both files name.
pub struct Tables {
    pub version: String,
    variation_entries: Vec<char>,
    emoji_modifiers: Vec<char>,
    emoji_modifier_bases: Vec<char>,
    emoji_presentation_ranges: Vec<Range>,
    emoji_ranges: Vec<Range>,
}

impl Tables {
    /// Reads the texts of the two files.
    pub fn parse(emoji_data: &str, variation_sequences: &str) -> Result<Self, String> {
        let version = version(EMOJI_DATA, emoji_data)?;
        let other = self::version(VARIATION_SEQUENCES, variation_sequences)?;
        if version != other {
            return Err(format!(
                "{EMOJI_DATA} is of version {version}, {VARIATION_SEQUENCES} of {other}"
            ));
        }
        let property = |name| property_ranges(emoji_data, name);
        Ok(Self {
            version,
            variation_entries: variation_entries(variation_sequences)?,
            emoji_modifiers: members(&property("Emoji_Modifier")?),
            emoji_modifier_bases: members(&property("Emoji_Modifier_Base")?),
            emoji_presentation_ranges: merged(&property("Emoji_Presentation")?),
            emoji_ranges: merged(&property("Emoji")?),
        })
    }

    /// The text of `unicode_data.rs`.
    pub fn source(&self) -> String {
        let mut out = String::new();
        let characters = [
            ("VARIATION_ENTRIES", &self.variation_entries),
            ("EMOJI_MODIFIERS", &self.emoji_modifiers),
            ("EMOJI_MODIFIER_BASES", &self.emoji_modifier_bases),
        ];
        for (name, table) in characters {
            push_table(&mut out, name, "char", table.iter().map(literal));
        }
        let regional_indicators = vec![REGIONAL_INDICATORS];
        let ranges = [
            ("EMOJI_PRESENTATION_RANGES", &self.emoji_presentation_ranges),
            ("EMOJI_RANGES", &self.emoji_ranges),
            ("RI_RANGES", &regional_indicators),
        ];
        for (name, table) in ranges {
            let elements = table
                .iter()
                .map(|(first, last)| format!("({}, {})", literal(first), literal(last)));
            push_table(&mut out, name, "(char, char)", elements);
        }
        out
    }
}

/// Adds one table to the source text, with an element a line.
fn push_table(
    out: &mut String,
    name: &str,
    kind: &str,
    elements: impl ExactSizeIterator<Item = String>,
) {
    let _ = writeln!(
        out,
        "pub(crate) static {name}: [{kind}; {}] = [",
        elements.len()
    );
    for element in elements {
        let _ = writeln!(out, "    {element},");
    }
    out.push_str("];\n");
}

/// A character as Rust writes it.
fn literal(character: &char) -> String {
    format!("'\\u{{{:04X}}}'", u32::from(*character))
}

/// The version that a file names. The end mark is tested here too, so that no file is read in part.
fn version(file: &str, text: &str) -> Result<String, String> {
    if text.trim_end().lines().next_back() != Some(END_MARK) {
        return Err(format!("{file}: its last line is not {END_MARK}"));
    }
    text.lines()
        .find_map(|line| line.strip_prefix(VERSION_MARK)?.split(' ').next())
        .map(str::to_owned)
        .ok_or_else(|| format!("{file}: no line begins with \"{VERSION_MARK}\""))
}

/// The ranges of a property, line by line as the file has them.
fn property_ranges(text: &str, property: &str) -> Result<Vec<Range>, String> {
    let mut ranges: Vec<Range> = Vec::new();
    let mut total = None;
    for (number, line) in (1..).zip(text.lines()) {
        let fault = |what: &str| format!("{EMOJI_DATA}:{number}: {what}: {line}");
        if let Some(stated) = line.strip_prefix(PROPERTY_TOTAL_MARK) {
            if total.is_none() && !ranges.is_empty() {
                total = Some(parse_total(stated).ok_or_else(|| fault("no number"))?);
            }
            continue;
        }
        let data = without_comment(line);
        if data.is_empty() {
            continue;
        }
        let (points, name) = data.split_once(';').ok_or_else(|| fault("no property"))?;
        let range = parse_range(points.trim()).ok_or_else(|| fault("no code points"))?;
        if name.trim() != property {
            continue;
        }
        if total.is_some() {
            return Err(fault("after the total of its property"));
        }
        if ranges.last().is_some_and(|(_, last)| *last >= range.0) {
            return Err(fault("not in ascending order"));
        }
        ranges.push(range);
    }
    check_total(EMOJI_DATA, property, total, members(&ranges).len())?;
    Ok(ranges)
}

/// The bases of the variation sequences. Each has two lines, for text style and then for emoji style.
fn variation_entries(text: &str) -> Result<Vec<char>, String> {
    let mut entries: Vec<char> = Vec::new();
    let mut total = None;
    let mut awaits_emoji_style = None;
    for (number, line) in (1..).zip(text.lines()) {
        let fault = |what: &str| format!("{VARIATION_SEQUENCES}:{number}: {what}: {line}");
        if let Some(stated) = line.strip_prefix(BASES_TOTAL_MARK) {
            total = Some(parse_total(stated).ok_or_else(|| fault("no number"))?);
            continue;
        }
        let data = without_comment(line);
        if data.is_empty() {
            continue;
        }
        let (base, style) = parse_sequence(data).ok_or_else(|| fault("no variation sequence"))?;
        match (style, awaits_emoji_style.take()) {
            (Style::Text, None) => awaits_emoji_style = Some(base),
            (Style::Emoji, Some(text_base)) if text_base == base => {
                if entries.last().is_some_and(|last| *last >= base) {
                    return Err(fault("not in ascending order"));
                }
                entries.push(base);
            }
            _ => return Err(fault("not the second line of a pair")),
        }
    }
    if awaits_emoji_style.is_some() {
        return Err(format!(
            "{VARIATION_SEQUENCES}: the last base has only one line"
        ));
    }
    check_total(VARIATION_SEQUENCES, "bases", total, entries.len())?;
    Ok(entries)
}

/// The style of a variation sequence.
enum Style {
    Text,
    Emoji,
}

/// The base and the style of a line such as `0023 FE0E  ; text style;`.
fn parse_sequence(data: &str) -> Option<(char, Style)> {
    let (points, style) = data.split_once(';')?;
    let (base, selector) = points.trim().split_once(' ')?;
    let base = parse_code_point(base)?;
    match (selector, style.trim()) {
        ("FE0E", "text style;") => Some((base, Style::Text)),
        ("FE0F", "emoji style;") => Some((base, Style::Emoji)),
        _ => None,
    }
}

/// A range such as `2194..2199`, or a single code point.
fn parse_range(points: &str) -> Option<Range> {
    let (first, last) = points.split_once("..").unwrap_or((points, points));
    let range = (parse_code_point(first)?, parse_code_point(last)?);
    (range.0 <= range.1).then_some(range)
}

/// A code point of four to six upper-case hexadecimal digits.
fn parse_code_point(digits: &str) -> Option<char> {
    let is_digit = |byte: u8| byte.is_ascii_digit() || (b'A'..=b'F').contains(&byte);
    if !(4..=6).contains(&digits.len()) || !digits.bytes().all(is_digit) {
        return None;
    }
    u32::from_str_radix(digits, 16)
        .ok()
        .and_then(char::from_u32)
}

/// A stated total.
fn parse_total(stated: &str) -> Option<usize> {
    stated.trim().parse().ok()
}

/// A line's data, without the comment and the blanks around it.
fn without_comment(line: &str) -> &str {
    line.split_once('#').map_or(line, |(data, _)| data).trim()
}

/// Tests a number of elements against the total that the file states.
fn check_total(file: &str, what: &str, total: Option<usize>, found: usize) -> Result<(), String> {
    match total {
        Some(total) if total == found => Ok(()),
        Some(total) => Err(format!(
            "{file}: {what}: {found} found, the file says {total}"
        )),
        None => Err(format!("{file}: {what}: no lines, or no total after them")),
    }
}

/// Each code point of the ranges.
fn members(ranges: &[Range]) -> Vec<char> {
    ranges
        .iter()
        .flat_map(|&(first, last)| first..=last)
        .collect()
}

/// Ascending ranges with those that touch made one.
fn merged(ranges: &[Range]) -> Vec<Range> {
    let mut out: Vec<Range> = Vec::new();
    for &(first, last) in ranges {
        match out.last_mut() {
            Some(before) if u32::from(before.1) + 1 == u32::from(first) => before.1 = last,
            _ => out.push((first, last)),
        }
    }
    out
}
