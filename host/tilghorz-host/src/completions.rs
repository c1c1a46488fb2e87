//! Completions for shells, made from the help texts.

use std::fmt::Write;

use crate::help::Topic;
use crate::options::{self, Named, did_you_mean};

/// A shell.
#[derive(Debug, Clone, Copy, PartialEq, Eq)]
pub enum Shell {
    /// bash.
    Bash,
    /// zsh.
    Zsh,
    /// fish.
    Fish,
}

/// The words that come first in `policy`.
pub const POLICY_WORDS: [&str; 5] = ["print", "compare", "write", "carry", "tips"];

impl Shell {
    /// The shell of a name.
    pub fn of(name: &str) -> Result<Self, String> {
        match name {
            "bash" => Ok(Self::Bash),
            "zsh" => Ok(Self::Zsh),
            "fish" => Ok(Self::Fish),
            _ => {
                let meant = did_you_mean(name, ["bash", "zsh", "fish"]);
                Err(format!("{name}: neither bash, zsh nor fish{meant}"))
            }
        }
    }

    /// The completions. Writing to a string does not fail.
    pub fn completions(self) -> String {
        let mut out = String::new();
        let _ = match self {
            Self::Bash => bash(&mut out),
            Self::Zsh => zsh(&mut out),
            Self::Fish => fish(&mut out),
        };
        out
    }
}

/// The commands, each with what it does.
fn commands() -> Vec<(&'static str, String)> {
    let entries = Topic::All.entries();
    entries
        .map(|entry| (entry.head, entry.lines.join(" ")))
        .collect()
}

/// The topics that have commands.
fn topics() -> impl Iterator<Item = Topic> {
    Topic::ALL.into_iter().filter(|topic| topic.is_command())
}

/// The words that can come first after a command, instead of a file.
fn first_words(topic: Topic) -> Option<&'static [&'static str]> {
    match topic {
        Topic::Policy => Some(&POLICY_WORDS),
        Topic::Completions => Some(&["bash", "zsh", "fish"]),
        Topic::Man => Some(&[]),
        _ => None,
    }
}

/// The words that a value can be, where it is no file; none are known of some.
fn values(option: &Named) -> Option<&'static [&'static str]> {
    match *option.values.first()? {
        "WHEN" => Some(&["auto", "always", "never"]),
        "FORM" => Some(&["lines", "short", "json"]),
        "LIST" => Some(&["text", "emoji", "default"]),
        "SET" => Some(&["prefer_bare", "bare_as_text"]),
        "FILE" | "NAME" => None,
        _ => Some(&[]),
    }
}

/// All options, each once.
fn all_options() -> Vec<Named> {
    let mut all: Vec<Named> = Vec::new();
    for option in topics().flat_map(options::of) {
        if !all.iter().any(|known| known.long == option.long) {
            all.push(option);
        }
    }
    all
}

/// An option by its name and its letter.
fn names(option: &Named) -> Vec<String> {
    let letter = option.short.map(|letter| format!("-{letter}"));
    letter.into_iter().chain([option.long.to_owned()]).collect()
}

fn bash(out: &mut String) -> std::fmt::Result {
    let names_of = |topic| {
        options::of(topic)
            .iter()
            .flat_map(names)
            .collect::<Vec<_>>()
            .join(" ")
    };
    let commands = commands()
        .iter()
        .map(|(name, _)| *name)
        .collect::<Vec<_>>()
        .join(" ");
    writeln!(out, "# Completions of tilghorz-host for bash.")?;
    writeln!(out, "_tilghorz_host() {{")?;
    writeln!(
        out,
        "    local word=${{COMP_WORDS[COMP_CWORD]}} before=${{COMP_WORDS[COMP_CWORD-1]}} words="
    )?;
    writeln!(out, "    if [ \"$COMP_CWORD\" -eq 1 ]; then")?;
    writeln!(
        out,
        "        COMPREPLY=($(compgen -W '{commands}' -- \"$word\"))\n        return\n    fi"
    )?;
    writeln!(out, "    case $before in")?;
    for option in all_options() {
        let pattern = names(&option).join("|");
        match values(&option) {
            Some(words) => {
                let words = words.join(" ");
                writeln!(
                    out,
                    "    {pattern}) COMPREPLY=($(compgen -W '{words}' -- \"$word\")); return ;;"
                )?;
            }
            None if option.values.is_empty() => {}
            None => writeln!(
                out,
                "    {pattern}) mapfile -t COMPREPLY < <(compgen -f -- \"$word\"); return ;;"
            )?,
        }
    }
    writeln!(out, "    esac\n    case ${{COMP_WORDS[1]}} in")?;
    for topic in topics() {
        let name = topic.name();
        writeln!(out, "    {name}) words='{}' ;;", names_of(topic))?;
    }
    let help: Vec<&str> = Topic::ALL.into_iter().skip(1).map(Topic::name).collect();
    writeln!(
        out,
        "    help) COMPREPLY=($(compgen -W '{}' -- \"$word\")); return ;;\n    esac",
        help.join(" ")
    )?;
    writeln!(
        out,
        "    if [ \"$COMP_CWORD\" -eq 2 ]; then\n        case ${{COMP_WORDS[1]}} in"
    )?;
    for (topic, first) in topics().filter_map(|topic| Some((topic, first_words(topic)?))) {
        let (name, first) = (topic.name(), first.join(" "));
        writeln!(
            out,
            "        {name}) COMPREPLY=($(compgen -W '{first}' -- \"$word\")); return ;;"
        )?;
    }
    writeln!(out, "        esac\n    fi\n    case $word in")?;
    writeln!(
        out,
        "    -*) COMPREPLY=($(compgen -W \"$words\" -- \"$word\")) ;;"
    )?;
    writeln!(
        out,
        "    *) mapfile -t COMPREPLY < <(compgen -f -- \"$word\") ;;\n    esac\n}}"
    )?;
    writeln!(out, "complete -o filenames -F _tilghorz_host tilghorz-host")
}

/// A text between apostrophes for zsh and fish. In zsh, colons and brackets of a description need a backslash.
fn quoted(text: &str, escapes: &[char]) -> String {
    let mut out = String::from("'");
    for character in text.chars() {
        match character {
            '\'' => out.push_str("'\\''"),
            _ if escapes.contains(&character) => out.extend(['\\', character]),
            _ => out.push(character),
        }
    }
    out + "'"
}

fn zsh(out: &mut String) -> std::fmt::Result {
    const ESCAPES: [char; 3] = [':', '[', ']'];
    writeln!(
        out,
        "#compdef tilghorz-host\n# Completions of tilghorz-host for zsh."
    )?;
    writeln!(
        out,
        "_tilghorz_host() {{\n    local -a commands\n    commands=("
    )?;
    for (name, what) in commands() {
        writeln!(
            out,
            "        {}",
            quoted(&format!("{name}:{}", what.replace(':', "\\:")), &[])
        )?;
    }
    writeln!(
        out,
        "    )\n    if (( CURRENT == 2 )); then\n        _describe command commands\n        return\n    fi"
    )?;
    writeln!(
        out,
        "    local command=${{words[2]}}\n    shift words\n    (( CURRENT-- ))\n    case $command in"
    )?;
    for topic in topics() {
        writeln!(out, "    {})\n        _arguments -s \\", topic.name())?;
        for option in options::of(topic) {
            let meaning = quoted(&option.what, &ESCAPES);
            let meaning = meaning.trim_matches('\'');
            let mut value = String::new();
            for name in &option.values {
                let words = values(&option).map(|words| words.join(" "));
                let action = match words {
                    Some(words) if words.is_empty() => " ".to_owned(),
                    Some(words) => format!("({words})"),
                    None => "_files".to_owned(),
                };
                write!(value, ":{name}:{action}")?;
            }
            for name in names(&option) {
                writeln!(out, "            '*{name}[{meaning}]{value}' \\")?;
            }
        }
        match first_words(topic) {
            Some([]) => writeln!(out, "            && return ;;")?,
            Some(words) => writeln!(
                out,
                "            '1:word:({})' '*:file:_files' ;;",
                words.join(" ")
            )?,
            None => writeln!(out, "            '*:file:_files' ;;")?,
        }
    }
    let help: Vec<&str> = Topic::ALL.into_iter().skip(1).map(Topic::name).collect();
    writeln!(
        out,
        "    help) _values topic {} ;;\n    esac\n}}",
        help.join(" ")
    )?;
    writeln!(out, "_tilghorz_host \"$@\"")
}

fn fish(out: &mut String) -> std::fmt::Result {
    const START: &str = "complete -c tilghorz-host";
    writeln!(out, "# Completions of tilghorz-host for fish.")?;
    for (name, what) in commands() {
        let what = quoted(&what, &['\\']);
        writeln!(
            out,
            "{START} -n __fish_use_subcommand -f -a {name} -d {what}"
        )?;
    }
    for topic in topics() {
        let seen = format!("-n '__fish_seen_subcommand_from {}'", topic.name());
        for option in options::of(topic) {
            write!(out, "{START} {seen} -l {}", &option.long[2..])?;
            if let Some(letter) = option.short {
                write!(out, " -s {letter}")?;
            }
            match values(&option) {
                None if option.values.is_empty() => {}
                None => write!(out, " -r")?,
                Some(words) => write!(out, " -x -a '{}'", words.join(" "))?,
            }
            writeln!(out, " -d {}", quoted(&option.what, &['\\']))?;
        }
        if let Some(words) = first_words(topic) {
            writeln!(out, "{START} {seen} -a '{}'", words.join(" "))?;
        }
    }
    let help: Vec<&str> = Topic::ALL.into_iter().skip(1).map(Topic::name).collect();
    let help = help.join(" ");
    writeln!(
        out,
        "{START} -n '__fish_seen_subcommand_from help' -f -a '{help}'"
    )
}

#[cfg(test)]
mod tests {
    use super::*;

    #[test]
    fn every_command_and_option_is_there() {
        for shell in [Shell::Bash, Shell::Zsh, Shell::Fish] {
            let text = shell.completions();
            for (command, _) in commands() {
                assert!(text.contains(command), "{shell:?} {command}");
            }
            for option in all_options() {
                let name = match shell {
                    Shell::Fish => format!(" -l {} ", &option.long[2..]),
                    Shell::Bash | Shell::Zsh => option.long.to_owned(),
                };
                assert!(text.contains(&name), "{shell:?} {name}");
            }
        }
    }
}
