//! Texts in HTML. What has a meaning there is escaped, and what cannot be seen has a badge with its code point.
//!
//! Whoever reads the page by its elements finds the text itself: the badges are made by the style, and are no part of it. Only a
//! control character stands as U+FFFD, since HTML has no way to write each of them.

use std::fmt::{self, Display, Formatter, Write};

use tilghorz::ItemKind;

use crate::visible;

/// A text. An emoji is one picture, and if it has selectors, a badge after it has them, or all its code points if there is more
/// than a base and its selectors. Elsewhere every invisible character has a badge.
pub struct Text<'a>(pub &'a str);

impl Display for Text<'_> {
    fn fmt(&self, out: &mut Formatter<'_>) -> fmt::Result {
        let text = self.0;
        if text.is_ascii() {
            return write_characters(text, write_alone, out);
        }
        match tilghorz::items(text.as_bytes()) {
            Ok(items) => items.iter().try_for_each(|item| {
                let part = &text[item.span()];
                match item.kind {
                    ItemKind::EmojiHeaded => write_emoji(part, out),
                    _ => write_characters(part, write_alone, out),
                }
            }),
            // It is longer than a text may be.
            Err(_) => write_characters(text, write_alone, out),
        }
    }
}

/// Writes an emoji.
fn write_emoji(emoji: &str, out: &mut Formatter<'_>) -> fmt::Result {
    const SELECTORS: [char; 2] = ['\u{FE0E}', '\u{FE0F}'];
    let joined = |character, out: &mut Formatter<'_>| {
        let code = u32::from(character);
        write!(out, "&#x{code:X};")
    };
    let Some(first) = emoji.find(SELECTORS) else {
        return write_characters(emoji, joined, out);
    };
    let (base, rest) = emoji.split_at(first);
    let is_simple = base.chars().count() == 1 && rest.chars().all(|one| SELECTORS.contains(&one));
    let badge = CodePoints(if is_simple { rest } else { emoji });
    write!(out, "<b data-c=\"{badge}\">")?;
    write_characters(emoji, joined, out)?;
    out.write_str("</b>")
}

/// Writes an invisible character that stands alone. It is not shown, only its badge is.
fn write_alone(character: char, out: &mut Formatter<'_>) -> fmt::Result {
    let code = u32::from(character);
    let held = if character.is_control() { 0xFFFD } else { code };
    write!(out, "<b data-c={code:04X}><s>&#x{held:X};</s></b>")
}

/// Writes characters. Those that cannot be seen are written by a function.
fn write_characters(
    text: &str,
    write_invisible: impl Fn(char, &mut Formatter<'_>) -> fmt::Result,
    out: &mut Formatter<'_>,
) -> fmt::Result {
    let mut written = 0;
    for (at, character) in text.char_indices() {
        let escaped = match character {
            '&' => "&amp;",
            '<' => "&lt;",
            '>' => "&gt;",
            '"' => "&quot;",
            '\'' => "&#39;",
            ' '..='~' | '\t' => continue,
            _ if visible::is_by_code_point(character) => "",
            _ => continue,
        };
        out.write_str(&text[written..at])?;
        written = at + character.len_utf8();
        match escaped {
            "" => write_invisible(character, out)?,
            _ => out.write_str(escaped)?,
        }
    }
    out.write_str(&text[written..])
}

/// The code points of a text, with blanks between them. Of many only the first are written.
pub struct CodePoints<'a>(pub &'a str);

impl Display for CodePoints<'_> {
    fn fmt(&self, out: &mut Formatter<'_>) -> fmt::Result {
        const MOST: usize = 24;
        let mut characters = self.0.chars();
        for (index, character) in characters.by_ref().take(MOST).enumerate() {
            let blank = if index == 0 { "" } else { " " };
            write!(out, "{blank}{:04X}", u32::from(character))?;
        }
        if characters.next().is_some() {
            out.write_str(" ...")?;
        }
        Ok(())
    }
}

/// A number, with commas between thousands.
pub struct Number(pub usize);

impl Display for Number {
    fn fmt(&self, out: &mut Formatter<'_>) -> fmt::Result {
        let digits = self.0.to_string();
        for (index, digit) in digits.chars().enumerate() {
            if index > 0 && (digits.len() - index).is_multiple_of(3) {
                out.write_char(',')?;
            }
            out.write_char(digit)?;
        }
        Ok(())
    }
}

/// A number of things.
pub fn several(number: usize, thing: &str) -> String {
    let plural = if number == 1 { "" } else { "s" };
    format!("{} {thing}{plural}", Number(number))
}

/// The beginning of a text, of this number of bytes at most.
pub fn beginning(text: &str, most: usize) -> &str {
    let mut end = most.min(text.len());
    while !text.is_char_boundary(end) {
        end -= 1;
    }
    &text[..end]
}

#[cfg(test)]
mod tests {
    use super::*;

    #[test]
    fn what_has_a_meaning_is_escaped() {
        let text = Text("<a href=\"x\">&'\u{1B}\u{202E}\u{85}").to_string();
        let expected = "&lt;a href=&quot;x&quot;&gt;&amp;&#39;<b data-c=001B><s>&#xFFFD;</s></b>\
                        <b data-c=202E><s>&#x202E;</s></b><b data-c=0085><s>&#xFFFD;</s></b>";
        assert_eq!(text, expected);
    }

    #[test]
    fn an_emoji_is_one_picture() {
        let shown = |text| Text(text).to_string();
        assert_eq!(
            shown("\u{2764}\u{FE0F}\u{200D}\u{1F525}"),
            "<b data-c=\"2764 FE0F 200D 1F525\">\u{2764}&#xFE0F;&#x200D;\u{1F525}</b>"
        );
        assert_eq!(shown("1\u{FE0E}"), "<b data-c=\"FE0E\">1&#xFE0E;</b>");
        assert_eq!(
            shown("\u{1F469}\u{200D}\u{1F4BB}"),
            "\u{1F469}&#x200D;\u{1F4BB}"
        );
        assert_eq!(
            shown("a\u{200D}\u{FE0F}"),
            "a<b data-c=200D><s>&#x200D;</s></b><b data-c=FE0F><s>&#xFE0F;</s></b>"
        );
    }

    #[test]
    fn numbers_have_commas() {
        let shown = [0, 12, 123, 1234, 1_234_567].map(|number| Number(number).to_string());
        assert_eq!(shown, ["0", "12", "123", "1,234", "1,234,567"]);
        assert_eq!(CodePoints("a\u{1F600}").to_string(), "0061 1F600");
        assert_eq!(
            (several(1, "file"), several(2, "file")),
            ("1 file".into(), "2 files".into())
        );
    }
}
