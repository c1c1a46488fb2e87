//! The manual page, made from the help texts.

use crate::help::{self, Block, Entry, Topic};

/// The page, in the language of the macros `man`.
pub fn page() -> String {
    let mut page = format!(".TH TILGHORZ-HOST 1 \"\" \"{}\"\n", help::TOOL);
    page.push_str(".SH NAME\ntilghorz\\-host \\- format the emoji selectors of texts\n");
    for topic in Topic::ALL {
        match topic {
            Topic::All => page.push_str(".SH DESCRIPTION\n"),
            _ => {
                let title = topic.name().to_uppercase();
                page.extend([".SH ", &title, "\n"]);
            }
        }
        for block in help::blocks(topic.text()) {
            push(&block, topic, &mut page);
        }
    }
    page
}

/// Appends a part of a help text.
fn push(block: &Block, topic: Topic, page: &mut String) {
    match block {
        Block::Usage(lines) => {
            page.push_str(".PP\n.nf\n");
            lines.iter().for_each(|line| push_line(line, page));
            page.push_str(".fi\n");
        }
        Block::Paragraph(lines) => {
            page.push_str(".PP\n");
            lines.iter().for_each(|line| push_line(line, page));
        }
        Block::Entry(Entry { head, lines }) => {
            page.extend([".TP\n.B ", &escaped(head), "\n"]);
            for (index, line) in lines.iter().enumerate() {
                // The examples of findings have lines of their own.
                if index > 0 && topic == Topic::Findings {
                    page.push_str(".br\n");
                }
                push_line(line, page);
            }
        }
    }
}

/// Appends a line of text.
fn push_line(line: &str, page: &mut String) {
    page.push_str(&escaped(line));
    page.push('\n');
}

/// A text in which no character has another meaning, in ASCII.
fn escaped(text: &str) -> String {
    let mut out = String::new();
    for character in text.chars() {
        match character {
            '\\' => out.push_str("\\e"),
            '-' => out.push_str("\\-"),
            '.' | '\'' if out.is_empty() => out.extend(['\\', '&', character]),
            _ if character.is_ascii() => out.push(character),
            _ => out.push_str(&format!("\\[u{:04X}]", u32::from(character))),
        }
    }
    out
}

#[cfg(test)]
mod tests {
    use super::*;

    /// Without requests and escapes, the page has the words of the help texts, in their order.
    #[test]
    fn the_page_has_the_words_of_the_help() {
        let page = page();
        let lines = page.lines().skip_while(|line| *line != ".SH DESCRIPTION");
        let lines = lines.filter_map(|line| match line.strip_prefix('.') {
            Some(request) => request.strip_prefix("B "),
            None => Some(line),
        });
        let text = lines.collect::<Vec<_>>().join(" ");
        assert!(text.is_ascii());
        let words = Topic::ALL
            .into_iter()
            .flat_map(|topic| topic.text().split_whitespace())
            .filter(|word| *word != "usage:");
        // Only what is at the start of a line can have the mark against requests.
        let text = text.replace("\\&", "");
        for (found, word) in text.split_whitespace().zip(words.clone()) {
            assert_eq!(found, escaped(word).replace("\\&", ""));
        }
        assert_eq!(text.split_whitespace().count(), words.count());
        let requests = [".TH ", ".SH ", ".PP", ".nf", ".fi", ".TP", ".B ", ".br"];
        for line in page.lines().filter(|line| line.starts_with(['.', '\''])) {
            assert!(
                requests.iter().any(|request| line.starts_with(request)),
                "{line}"
            );
        }
    }
}
