//! The texts that are measured.

use tilghorz_comparison::Random;

use crate::words::{CHINESE, ENGLISH, IN_CHATS, RUSSIAN, SEQUENCES};

/// A kind of text.
#[derive(Clone, Copy)]
pub struct Input {
    /// What the tables and the command line call it.
    pub name: &'static str,
    /// What it is.
    pub about: &'static str,
    /// The bytes of a message, if the text is a list of messages that are each handed over in a call.
    pub message: Option<usize>,
    /// Whether it is measured under the empty policy, and not under the default one.
    pub empty_policy: bool,
    /// The wanted ratio: the crate's time of formatting this text divided by the library's.
    pub wanted: Option<f64>,
    /// Makes a text with this number of bytes.
    make: fn(&Self, usize) -> String,
}

/// The bytes of a short message.
const MESSAGE: usize = 48;

/// The kinds: chats, messages, and what costs most.
pub const INPUTS: [Input; 13] = [
    Input::text("ascii", "English chat, with some numbers", ascii).wanted(100.0),
    Input::text(
        "mixed",
        "the same, 5 % of its characters are emoji or selectors",
        mixed,
    )
    .wanted(6.0),
    Input::text(
        "dense",
        "emoji and emoji sequences with right and wrong selectors",
        dense,
    )
    .wanted(4.0),
    Input::text("cyrillic", "Russian chat", cyrillic).wanted(2.5),
    Input::text("cjk", "Chinese chat", cjk).wanted(2.3),
    Input::text("ascii-48", "messages of 48 bytes of ascii", ascii)
        .messages()
        .wanted(15.0),
    Input::text("mixed-48", "messages of 48 bytes of mixed", mixed)
        .messages()
        .wanted(15.0),
    Input::text("dense-48", "messages of 48 bytes of dense", dense)
        .messages()
        .wanted(5.0),
    Input::text("selectors", "one run of selectors", selectors),
    Input::text(
        "late-run",
        "a selector, a letter, and one run of selectors",
        late_run,
    ),
    Input::text("links", "one run of links", links),
    Input::text("tags", "one base with a run of tags", tags),
    Input::text(
        "per-byte",
        "digits under the empty policy: a finding per byte",
        digits,
    )
    .under_empty_policy(),
];

impl Input {
    const fn text(
        name: &'static str,
        about: &'static str,
        make: fn(&Self, usize) -> String,
    ) -> Self {
        Self {
            name,
            about,
            message: None,
            empty_policy: false,
            wanted: None,
            make,
        }
    }

    const fn wanted(mut self, ratio: f64) -> Self {
        self.wanted = Some(ratio);
        self
    }

    const fn messages(mut self) -> Self {
        self.message = Some(MESSAGE);
        self
    }

    const fn under_empty_policy(mut self) -> Self {
        self.empty_policy = true;
        self
    }

    /// A text of this kind with `bytes` bytes, or some bytes fewer if the last message would not be whole. It is the
    /// same in every run.
    #[must_use]
    pub fn make(&self, bytes: usize) -> String {
        (self.make)(self, bytes)
    }

    /// Drawn tokens up to the length. Each message is filled up with blanks.
    fn drawn(&self, bytes: usize, token: fn(&mut Random) -> String) -> String {
        let mut random = Random::new();
        let message = self.message.unwrap_or(bytes);
        let mut text = String::with_capacity(bytes);
        for _ in 0..bytes / message.max(1) {
            let end = text.len() + message;
            loop {
                let next = token(&mut random);
                if text.len() + next.len() > end {
                    break;
                }
                text.push_str(&next);
            }
            text.extend(std::iter::repeat_n(' ', end - text.len()));
        }
        text
    }
}

fn ascii(input: &Input, bytes: usize) -> String {
    input.drawn(bytes, english_word)
}

fn mixed(input: &Input, bytes: usize) -> String {
    input.drawn(bytes, |random| match random.below(6) {
        0 => chat_emoji(random) + " ",
        _ => english_word(random),
    })
}

fn dense(input: &Input, bytes: usize) -> String {
    input.drawn(bytes, dense_emoji)
}

fn cyrillic(input: &Input, bytes: usize) -> String {
    input.drawn(bytes, |random| word(random, &RUSSIAN, [" ", ", ", ". "]))
}

fn cjk(input: &Input, bytes: usize) -> String {
    input.drawn(bytes, |random| {
        word(random, &CHINESE, ["", "\u{FF0C}", "\u{3002}"])
    })
}

fn selectors(_: &Input, bytes: usize) -> String {
    "\u{FE0F}".repeat(bytes / 3)
}

fn late_run(input: &Input, bytes: usize) -> String {
    "\u{FE0F}a".to_owned() + &selectors(input, bytes.saturating_sub(4))
}

fn links(_: &Input, bytes: usize) -> String {
    "\u{200D}".repeat(bytes / 3)
}

fn tags(_: &Input, bytes: usize) -> String {
    "\u{1F3F4}".to_owned() + &"\u{E0061}".repeat((bytes / 4).saturating_sub(1))
}

fn digits(_: &Input, bytes: usize) -> String {
    "1".repeat(bytes)
}

/// A word and what stands after it: most often the first of the three.
fn word(random: &mut Random, words: &[&str], after: [&str; 3]) -> String {
    let after = match random.below(12) {
        0 => after[2],
        1 => after[1],
        _ => after[0],
    };
    random.element(words).to_owned() + after
}

/// A word, or now and then a number.
fn english_word(random: &mut Random) -> String {
    match random.below(30) {
        0 => format!("{}:{:02} ", random.below(24), random.below(60)),
        _ => word(random, &ENGLISH, [" ", ", ", ".\n"]),
    }
}

/// An emoji as chats have it; some have their selector, some lack it.
fn chat_emoji(random: &mut Random) -> String {
    random.element(&IN_CHATS).to_owned()
}

/// An emoji or a sequence, now and then with one selector more or without any.
fn dense_emoji(random: &mut Random) -> String {
    let mut text = match random.below(3) {
        0 => SEQUENCES[random.below(SEQUENCES.len())].clone(),
        _ => chat_emoji(random),
    };
    match random.below(8) {
        0 => text.push(random.element(&['\u{FE0E}', '\u{FE0F}'])),
        1 => text.retain(|character| !matches!(character, '\u{FE0E}' | '\u{FE0F}')),
        2 => text.push(' '),
        _ => {}
    }
    text
}

#[cfg(test)]
mod tests {
    use super::*;

    #[test]
    fn a_text_has_the_length_that_is_asked_but_for_a_part_of_a_message_or_character() {
        for input in &INPUTS {
            for bytes in [4, 47, 48, 1000, 1 << 16] {
                let length = input.make(bytes).len();
                assert!(length <= bytes && bytes < length + 48, "{}", input.name);
            }
        }
    }

    #[test]
    fn messages_are_whole_characters() {
        for input in INPUTS.iter().filter(|input| input.message.is_some()) {
            let text = input.make(1 << 16);
            let mut messages = text.as_bytes().chunks(MESSAGE);
            assert!(messages.all(|message| str::from_utf8(message).is_ok()));
        }
    }

    #[test]
    fn about_a_twentieth_of_mixed_is_emoji_and_what_belongs_to_them() {
        let text = mixed(&INPUTS[1], 1 << 20);
        let share = text
            .chars()
            .filter(|character| !character.is_ascii())
            .count() as f64
            / text.chars().count() as f64;
        assert!((0.04..0.06).contains(&share), "{share}");
    }
}
