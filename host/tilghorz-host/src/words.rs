//! The words of a command line: options, their values, and names.

use std::ffi::{OsStr, OsString};
use std::mem;
use std::os::unix::ffi::OsStrExt;
use std::path::PathBuf;
use std::vec::IntoIter;

use crate::help::Topic;
use crate::options;
use crate::policy::PolicyFile;

/// A word.
pub enum Word {
    /// An option, without its value.
    Option(String),
    /// A name.
    Name(OsString),
}

/// The words that are left.
pub struct Words {
    /// The command.
    topic: Topic,
    words: IntoIter<OsString>,
    /// The letters that are left of a word of short options.
    letters: OsString,
    /// The option that was met last.
    option: String,
    /// Its value, if that was given with an equals sign.
    value: Option<OsString>,
    /// Whether `--` has been met.
    only_names: bool,
}

impl Words {
    /// The words after a command's name.
    pub fn new(topic: Topic, words: Vec<OsString>) -> Self {
        Self {
            topic,
            words: words.into_iter(),
            letters: OsString::new(),
            option: String::new(),
            value: None,
            only_names: false,
        }
    }

    /// The next word.
    pub fn next(&mut self) -> Result<Option<Word>, String> {
        if self.value.is_some() {
            return Err(format!("{}: takes no value", self.option));
        }
        if !self.letters.is_empty() {
            return self.next_letter().map(Some);
        }
        let Some(word) = self.words.next() else {
            return Ok(None);
        };
        if self.only_names || word == "-" || !word.as_bytes().starts_with(b"-") {
            return Ok(Some(Word::Name(word)));
        }
        if word == "--" {
            self.only_names = true;
            return self.next();
        }
        if !word.as_bytes().starts_with(b"--") {
            self.letters = OsStr::from_bytes(&word.as_bytes()[1..]).to_owned();
            return self.next();
        }
        let mut parts = word.as_bytes().splitn(2, |byte| *byte == b'=');
        self.option = String::from_utf8_lossy(parts.next().unwrap_or_default()).into_owned();
        self.value = parts
            .next()
            .map(|value| OsStr::from_bytes(value).to_owned());
        Ok(Some(Word::Option(self.option.clone())))
    }

    /// The option of the next letter.
    fn next_letter(&mut self) -> Result<Word, String> {
        let letters = mem::take(&mut self.letters);
        let text = letters.to_string_lossy();
        let letter = text.chars().next().unwrap_or_default();
        let Some(option) = options::long_of(letter) else {
            return Err(format!("-{letter}: unknown option"));
        };
        // The letter of an option is one byte.
        self.letters = OsStr::from_bytes(&letters.as_bytes()[1..]).to_owned();
        self.option = option.to_owned();
        Ok(Word::Option(self.option.clone()))
    }

    /// The value of an option: after an equals sign, the rest of a word of short options, or the next word.
    pub fn value(&mut self, option: &str) -> Result<OsString, String> {
        let rest = Some(mem::take(&mut self.letters)).filter(|rest| !rest.is_empty());
        let value = self.value.take().or(rest).or_else(|| self.words.next());
        value.ok_or(format!("{option}: no value"))
    }

    /// The value of an option, as a text.
    pub fn text(&mut self, option: &str) -> Result<String, String> {
        self.value(option)
            .map(|value| value.to_string_lossy().into_owned())
    }

    /// The policy of an option that may be given once.
    pub fn policy(&mut self, option: &str, policy: &mut PolicyFile) -> Result<(), String> {
        let path = PathBuf::from(self.value(option)?);
        match policy.0.replace(path) {
            None => Ok(()),
            Some(_) => Err(format!("{option}: given twice")),
        }
    }

    /// An option that the command does not have.
    pub fn unknown<T>(&self, option: &str) -> Result<T, String> {
        let known = options::of(self.topic);
        let meant = options::did_you_mean(option, known.iter().map(|known| known.long));
        Err(format!("{option}: unknown option{meant}"))
    }
}
