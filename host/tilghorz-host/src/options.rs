//! The options of the commands, as the help texts have them, and words that are near to a wrong one.

use crate::help::{Entry, Topic};

/// An option.
#[derive(Debug, PartialEq, Eq)]
pub struct Named {
    /// Its name, with two hyphens.
    pub long: &'static str,
    /// Its letter, if it has one.
    pub short: Option<char>,
    /// The names of its values.
    pub values: Vec<&'static str>,
    /// What it does, in a few words.
    pub what: String,
}

/// The options of a command: those of its own help, and those of the help on folders if it names them.
pub fn of(topic: Topic) -> Vec<Named> {
    let takes_folders = topic.is_command() && topic.text().contains("More OPTIONS");
    let more = takes_folders.then(|| Topic::Folders.entries());
    let entries = topic.entries().chain(more.into_iter().flatten());
    entries.flat_map(|entry| named(&entry)).collect()
}

/// The options of an entry. Its head is a list, with commas between: letters, and names with their values.
fn named(entry: &Entry) -> Vec<Named> {
    let (mut found, mut short) = (Vec::new(), None);
    for part in entry.head.split(", ") {
        let mut words = part.split(' ');
        let word = words.next().unwrap_or_default();
        match word.strip_prefix('-') {
            Some(name) if name.starts_with('-') => found.push(Named {
                long: word,
                short: short.take(),
                values: words.collect(),
                what: in_few_words(&entry.lines.join(" ")),
            }),
            letter => short = letter.and_then(|letter| letter.chars().next()),
        }
    }
    found
}

/// A text up to where its first sentence, or a part of that, ends.
fn in_few_words(text: &str) -> String {
    let text = text.strip_prefix("with ").map_or(text, |rest| {
        // After `with --check: ` comes what is meant.
        rest.split_once(": ").map_or(text, |(_, meant)| meant)
    });
    let ends = [". ", ": ", "; "]
        .into_iter()
        .filter_map(|end| text.find(end));
    text[..ends.min().unwrap_or(text.len())].to_owned()
}

/// The name of the option with a letter.
pub fn long_of(short: char) -> Option<&'static str> {
    let mut options = Topic::ALL.into_iter().flat_map(of);
    options.find_map(|option| (option.short == Some(short)).then_some(option.long))
}

/// The nearest of some words to a wrong one, if one is near, as a question.
pub fn did_you_mean<'a>(wrong: &str, words: impl IntoIterator<Item = &'a str>) -> String {
    // At most two letters are wrong, and more than half of them are right.
    let far = 3.min(wrong.trim_start_matches('-').chars().count().div_ceil(2));
    let distances = words.into_iter().map(|word| (distance(wrong, word), word));
    match distances.min_by_key(|(distance, _)| *distance) {
        Some((distance, word)) if distance < far => format!("; did you mean {word}?"),
        _ => String::new(),
    }
}

/// How many letters must be added, taken, replaced or exchanged with the next one to make one word of another.
fn distance(one: &str, other: &str) -> usize {
    let (one, other): (Vec<char>, Vec<char>) = (one.chars().collect(), other.chars().collect());
    let mut rows: Vec<Vec<usize>> = vec![(0..=other.len()).collect()];
    for (at, letter) in one.iter().enumerate() {
        let mut row = vec![at + 1];
        for (place, facing) in other.iter().enumerate() {
            let above = &rows[at];
            let replaced = above[place] + usize::from(letter != facing);
            let mut least = replaced.min(above[place + 1] + 1).min(row[place] + 1);
            if at > 0 && place > 0 && one[at - 1] == *facing && other[place - 1] == *letter {
                least = least.min(rows[at - 1][place - 1] + 1);
            }
            row.push(least);
        }
        rows.push(row);
    }
    rows[one.len()][other.len()]
}

#[cfg(test)]
mod tests {
    use super::*;

    #[test]
    fn options_are_read_from_the_help() {
        let options = of(Topic::Format);
        let find = |long| options.iter().find(|option| option.long == long);
        let jobs = find("--jobs").expect("an option of folders");
        assert_eq!((jobs.short, &*jobs.values), (Some('j'), &["N"][..]));
        let check = find("--check").expect("an option");
        assert_eq!(
            check.what,
            "only write the names of the files that would change"
        );
        assert_eq!(
            find("--null").expect("an option").what,
            "end each name with a byte 00 instead of a line feed, as xargs -0 expects it"
        );
        let repair = of(Topic::Repair);
        let both = repair
            .iter()
            .filter(|option| option.what.is_empty() || option.long.starts_with("--n"));
        assert_eq!(both.count(), 4, "{repair:?}");
    }

    #[test]
    fn a_letter_is_that_of_one_option() {
        let mut letters: Vec<(char, &str)> = Topic::ALL
            .into_iter()
            .flat_map(of)
            .filter_map(|option| Some((option.short?, option.long)))
            .collect();
        letters.sort_unstable();
        letters.dedup();
        assert!(
            letters.windows(2).all(|pair| pair[0].0 != pair[1].0),
            "{letters:?}"
        );
        assert_eq!(long_of('c'), Some("--check"));
        assert_eq!(long_of('x'), None);
    }

    /// Every option that the command line knows is in the help of a command.
    #[test]
    fn no_option_is_without_help() {
        let source = include_str!("arguments.rs");
        let known: Vec<&str> = Topic::ALL
            .into_iter()
            .flat_map(of)
            .map(|option| option.long)
            .collect();
        let quoted = source.split('"').skip(1).step_by(2);
        let options = quoted.filter(|word| word.starts_with("--") && word.len() > 2);
        let names = options.filter(|word| {
            word[2..]
                .bytes()
                .all(|byte| byte == b'-' || byte.is_ascii_lowercase())
        });
        let mut seen = 0;
        for name in names.filter(|name| !["--help", "--version"].contains(name)) {
            assert!(known.contains(&name), "{name}");
            seen += 1;
        }
        assert!(seen > 20, "{seen}");
    }

    #[test]
    fn a_near_word_is_named() {
        let words = ["format", "fix", "report", "--check", "--color"];
        let meant = |wrong| did_you_mean(wrong, words);
        assert_eq!(meant("fromat"), "; did you mean format?");
        assert_eq!(meant("formatt"), "; did you mean format?");
        assert_eq!(meant("--chek"), "; did you mean --check?");
        assert_eq!(meant("--colour"), "; did you mean --color?");
        assert_eq!(meant("fx"), "");
        assert_eq!(meant("banana"), "");
        assert_eq!(
            [
                distance("", "abc"),
                distance("ab", "ba"),
                distance("abc", "abc")
            ],
            [3, 1, 0]
        );
    }
}
