//! The topics of help, and what is read from the help texts.

use crate::help_texts as texts;

/// What help is about.
#[derive(Debug, Clone, Copy, PartialEq, Eq)]
pub enum Topic {
    /// The command as a whole.
    All,
    /// `format`.
    Format,
    /// `report`.
    Report,
    /// `fix`.
    Fix,
    /// `show`.
    Show,
    /// `page`.
    Page,
    /// `repair`.
    Repair,
    /// `policy`.
    Policy,
    /// `split`.
    Split,
    /// `completions`.
    Completions,
    /// `man`.
    Man,
    /// Findings. It is no command.
    Findings,
    /// Folders. It is no command.
    Folders,
}

impl Topic {
    /// Each, in the order of the manual page.
    pub const ALL: [Self; 13] = [
        Self::All,
        Self::Format,
        Self::Report,
        Self::Fix,
        Self::Show,
        Self::Page,
        Self::Repair,
        Self::Policy,
        Self::Split,
        Self::Completions,
        Self::Man,
        Self::Findings,
        Self::Folders,
    ];

    /// Its name. That of the command as a whole is empty.
    pub fn name(self) -> &'static str {
        match self {
            Self::All => "",
            Self::Format => "format",
            Self::Report => "report",
            Self::Fix => "fix",
            Self::Show => "show",
            Self::Page => "page",
            Self::Repair => "repair",
            Self::Policy => "policy",
            Self::Split => "split",
            Self::Completions => "completions",
            Self::Man => "man",
            Self::Findings => "findings",
            Self::Folders => "folders",
        }
    }

    /// Whether it is a command.
    pub fn is_command(self) -> bool {
        !matches!(self, Self::All | Self::Findings | Self::Folders)
    }

    /// The topic of a name.
    pub fn of(name: &str) -> Option<Self> {
        let mut topics = Self::ALL.into_iter().skip(1);
        topics.find(|topic| topic.name() == name)
    }

    /// The help on it.
    pub fn text(self) -> &'static str {
        match self {
            Self::All => texts::ALL,
            Self::Format => texts::FORMAT,
            Self::Report => texts::REPORT,
            Self::Fix => texts::FIX,
            Self::Show => texts::SHOW,
            Self::Page => texts::PAGE,
            Self::Repair => texts::REPAIR,
            Self::Policy => texts::POLICY,
            Self::Split => texts::SPLIT,
            Self::Completions => texts::COMPLETIONS,
            Self::Man => texts::MAN,
            Self::Findings => texts::FINDINGS,
            Self::Folders => texts::FOLDERS,
        }
    }

    /// The entries of its help.
    pub fn entries(self) -> impl Iterator<Item = Entry> {
        blocks(self.text())
            .into_iter()
            .filter_map(|block| match block {
                Block::Entry(entry) => Some(entry),
                Block::Usage(_) | Block::Paragraph(_) => None,
            })
    }
}

/// The command and its version.
pub const TOOL: &str = concat!("tilghorz-host ", env!("CARGO_PKG_VERSION"));

/// What `version` says: the version of the command, that of the tables, and the kit that proved the library.
pub fn version() -> String {
    let (unicode, kit) = (tilghorz::version(), tilghorz::KIT);
    format!("{TOOL}, Unicode {unicode}, {kit}\n")
}

/// A part of a help text.
#[derive(Debug, PartialEq, Eq)]
pub enum Block {
    /// How a command is called, in lines.
    Usage(Vec<&'static str>),
    /// A paragraph, in lines.
    Paragraph(Vec<&'static str>),
    /// An entry.
    Entry(Entry),
}

/// An entry of a help text.
#[derive(Debug, PartialEq, Eq)]
pub struct Entry {
    /// The option, the command or the word.
    pub head: &'static str,
    /// What it means, in lines.
    pub lines: Vec<&'static str>,
}

/// The parts of a help text.
pub fn blocks(text: &'static str) -> Vec<Block> {
    let mut blocks = Vec::new();
    for part in text.split("\n\n") {
        let mut lines = part.lines().peekable();
        match lines.peek() {
            Some(line) if line.starts_with("usage: ") => {
                let usage = lines.map(|line| line.trim_start_matches("usage: ").trim_start());
                blocks.push(Block::Usage(usage.collect()));
            }
            Some(line) if line.starts_with("  ") => blocks.extend(entries(lines)),
            _ => blocks.push(Block::Paragraph(lines.collect())),
        }
    }
    blocks
}

/// The entries of some lines.
fn entries(lines: impl Iterator<Item = &'static str>) -> Vec<Block> {
    let mut found: Vec<Entry> = Vec::new();
    for line in lines {
        let content = line.trim_start();
        match found.last_mut() {
            Some(entry) if line.starts_with("   ") => entry.lines.push(content),
            _ => {
                let (head, meaning) = content.split_once("  ").unwrap_or((content, ""));
                let lines = vec![meaning.trim_start()];
                found.push(Entry { head, lines });
            }
        }
    }
    found.into_iter().map(Block::Entry).collect()
}

#[cfg(test)]
mod tests {
    use super::*;

    #[test]
    fn every_topic_has_its_name_and_its_usage() {
        for topic in Topic::ALL {
            assert_eq!(
                Topic::of(topic.name()),
                Some(topic).filter(|topic| *topic != Topic::All)
            );
            let usage = |block: &Block| matches!(block, Block::Usage(_));
            assert_eq!(
                blocks(topic.text())
                    .iter()
                    .filter(|block| usage(block))
                    .count(),
                1
            );
        }
        let commands = Topic::ALL.into_iter().filter(|topic| topic.is_command());
        let listed: Vec<&str> = Topic::All.entries().map(|entry| entry.head).collect();
        assert!(
            commands
                .map(Topic::name)
                .chain(["help", "version"])
                .eq(listed)
        );
    }

    #[test]
    fn an_entry_has_its_lines() {
        let text = "usage: a\n       b\n\nOne\ntwo\n\n  -a, --b C  d\n             e\n  --f  g\n";
        let entry = |head, lines| Block::Entry(Entry { head, lines });
        assert_eq!(
            blocks(text),
            [
                Block::Usage(vec!["a", "b"]),
                Block::Paragraph(vec!["One", "two"]),
                entry("-a, --b C", vec!["d", "e"]),
                entry("--f", vec!["g"]),
            ]
        );
    }
}
