//! Patterns of names, as `.gitignore` has them.
//!
//! A pattern is matched by whole names: `*` is any part of a name, `?` one character, `[a-z]` one of a class, `[!a-z]` one
//! that is not of it, `\` takes the special meaning from what follows. `**` as a whole name is any number of folders, at
//! the end of a pattern everything below. A pattern with a `/` before its end counts from the folder that it was given
//! for; one without is for names at any depth. A `/` at the end asks for a folder.

/// A character of a name. A byte that is not part of one stands above all characters.
type Unit = u32;

/// A pattern.
#[derive(Debug, Clone, PartialEq, Eq)]
pub struct Glob {
    names: Vec<Name>,
    /// Whether it is for the whole path from its folder, and not for the last name alone.
    is_anchored: bool,
    /// Whether it is for folders alone.
    for_folders: bool,
}

/// What a pattern has for a name of the path.
#[derive(Debug, Clone, PartialEq, Eq)]
enum Name {
    /// `**`: any number of names.
    Any,
    /// One name.
    One(Vec<Piece>),
}

/// A piece of a name's pattern.
#[derive(Debug, Clone, PartialEq, Eq)]
enum Piece {
    /// `*`.
    Any,
    /// `?`.
    One,
    /// The character itself.
    Unit(Unit),
    /// A class, or what is not in it.
    Class {
        is_negated: bool,
        ranges: Vec<(Unit, Unit)>,
    },
}

/// The classes with a name, by their ranges.
const CLASSES: [(&str, &[(char, char)]); 12] = [
    ("alnum", &[('0', '9'), ('A', 'Z'), ('a', 'z')]),
    ("alpha", &[('A', 'Z'), ('a', 'z')]),
    ("blank", &[('\t', '\t'), (' ', ' ')]),
    ("cntrl", &[('\0', '\x1F'), ('\x7F', '\x7F')]),
    ("digit", &[('0', '9')]),
    ("graph", &[('!', '~')]),
    ("lower", &[('a', 'z')]),
    ("print", &[(' ', '~')]),
    ("punct", &[('!', '/'), (':', '@'), ('[', '`'), ('{', '~')]),
    ("space", &[('\t', '\r'), (' ', ' ')]),
    ("upper", &[('A', 'Z')]),
    ("xdigit", &[('0', '9'), ('A', 'F'), ('a', 'f')]),
];

/// The characters of a name.
pub fn units(name: &[u8]) -> Vec<Unit> {
    const ABOVE: Unit = char::MAX as Unit + 1;
    let mut units = Vec::with_capacity(name.len());
    for chunk in name.utf8_chunks() {
        units.extend(chunk.valid().chars().map(Unit::from));
        units.extend(chunk.invalid().iter().map(|byte| ABOVE + Unit::from(*byte)));
    }
    units
}

impl Glob {
    /// Reads a pattern, or says what is wrong with it.
    pub fn parse(pattern: &[u8]) -> Result<Self, &'static str> {
        let units = units(pattern);
        let mut rest = units.as_slice();
        let mut names = Vec::new();
        let mut pieces = Vec::new();
        let mut slashes = 0;
        while let Some((&unit, after)) = rest.split_first() {
            rest = after;
            match char::from_u32(unit) {
                Some('/') => {
                    slashes += 1;
                    names.push(std::mem::take(&mut pieces));
                }
                Some('*') => pieces.push(Piece::Any),
                Some('?') => pieces.push(Piece::One),
                Some('[') => pieces.push(class(&mut rest).ok_or("a bracket is not closed")?),
                Some('\\') => {
                    let (&unit, after) = rest.split_first().ok_or("a \\ stands at its end")?;
                    rest = after;
                    pieces.push(Piece::Unit(unit));
                }
                _ => pieces.push(Piece::Unit(unit)),
            }
        }
        names.push(pieces);
        let for_folders = names.len() > 1 && names.last().is_some_and(Vec::is_empty);
        if for_folders {
            names.pop();
        }
        let is_anchored = slashes > usize::from(for_folders);
        if names.len() > 1 && names.first().is_some_and(Vec::is_empty) {
            names.remove(0);
        }
        if names.iter().any(Vec::is_empty) {
            return Err("it has an empty name");
        }
        let mut names: Vec<Name> = names.into_iter().map(Name::of).collect();
        if is_anchored && names.last() == Some(&Name::Any) {
            // Everything below a folder, and not the folder itself.
            names.push(Name::One(vec![Piece::Any]));
        }
        Ok(Self {
            names,
            is_anchored,
            for_folders,
        })
    }

    /// Whether it is for the path of these names, counted from its folder.
    pub fn matches(&self, path: &[Vec<Unit>], is_folder: bool) -> bool {
        if self.for_folders && !is_folder {
            return false;
        }
        let from = if self.is_anchored {
            0
        } else {
            path.len().saturating_sub(1)
        };
        matches(
            &self.names,
            &path[from..],
            |name| *name == Name::Any,
            |name, found| match name {
                Name::Any => true,
                Name::One(pieces) => matches(
                    pieces,
                    found,
                    |piece| *piece == Piece::Any,
                    |piece, unit| piece.is_for(*unit),
                ),
            },
        )
    }
}

impl Name {
    /// What the pieces between two slashes are for.
    fn of(pieces: Vec<Piece>) -> Self {
        if pieces == [Piece::Any, Piece::Any] {
            Self::Any
        } else {
            Self::One(pieces)
        }
    }
}

impl Piece {
    /// Whether it is for a character.
    fn is_for(&self, unit: Unit) -> bool {
        match self {
            Self::Any | Self::One => true,
            Self::Unit(own) => *own == unit,
            Self::Class { is_negated, ranges } => {
                let is_in = ranges
                    .iter()
                    .any(|(first, last)| (*first..=*last).contains(&unit));
                is_in != *is_negated
            }
        }
    }
}

/// Whether a pattern is for a row of things, where some of its parts are for any number of them, and each other part for
/// one. Of several such parts only the last one met is ever tried again, so that the time is at most the product of the
/// lengths.
fn matches<P, T>(
    pattern: &[P],
    row: &[T],
    is_any: impl Fn(&P) -> bool,
    is_for: impl Fn(&P, &T) -> bool,
) -> bool {
    let (mut at, mut part) = (0, 0);
    // Where the last such part stands, and where in the row to try again.
    let mut again: Option<(usize, usize)> = None;
    while at < row.len() {
        match pattern.get(part) {
            Some(any) if is_any(any) => {
                again = Some((part, at));
                part += 1;
            }
            Some(one) if is_for(one, &row[at]) => {
                part += 1;
                at += 1;
            }
            _ => {
                let Some((any, from)) = again else {
                    return false;
                };
                again = Some((any, from + 1));
                part = any + 1;
                at = from + 1;
            }
        }
    }
    pattern[part..].iter().all(is_any)
}

/// Reads a class after its opening bracket, and leaves what follows it.
fn class(rest: &mut &[Unit]) -> Option<Piece> {
    let is = |unit: Option<&Unit>, character: char| unit == Some(&Unit::from(character));
    let is_negated = is(rest.first(), '!') || is(rest.first(), '^');
    if is_negated {
        *rest = &rest[1..];
    }
    let mut ranges = Vec::new();
    loop {
        if is(rest.first(), ']') && !ranges.is_empty() {
            *rest = &rest[1..];
            return Some(Piece::Class { is_negated, ranges });
        }
        if let Some((named, after)) = named_class(rest) {
            ranges.extend(named);
            *rest = after;
            continue;
        }
        let first = class_unit(rest)?;
        if is(rest.first(), '-') && rest.get(1).is_some() && !is(rest.get(1), ']') {
            *rest = &rest[1..];
            ranges.push((first, class_unit(rest)?));
        } else {
            ranges.push((first, first));
        }
    }
}

/// A character in a class.
fn class_unit(rest: &mut &[Unit]) -> Option<Unit> {
    if rest.first() == Some(&Unit::from('\\')) {
        *rest = &rest[1..];
    }
    let (&unit, after) = rest.split_first()?;
    *rest = after;
    Some(unit)
}

/// The ranges of a class with a name, `[:digit:]`, at the front, and what follows it.
fn named_class(rest: &[Unit]) -> Option<(impl Iterator<Item = (Unit, Unit)>, &[Unit])> {
    CLASSES.into_iter().find_map(|(name, ranges)| {
        let written = units(format!("[:{name}:]").as_bytes());
        let after = rest.strip_prefix(written.as_slice())?;
        let ranges = ranges
            .iter()
            .map(|(first, last)| (Unit::from(*first), Unit::from(*last)));
        Some((ranges, after))
    })
}

#[cfg(test)]
mod tests {
    use super::*;

    /// Whether a pattern is for a path. One that ends with a slash is a folder's.
    fn is_for(pattern: &str, path: &str) -> bool {
        let glob = Glob::parse(pattern.as_bytes()).expect("a pattern");
        let names: Vec<Vec<Unit>> = path
            .trim_end_matches('/')
            .split('/')
            .map(|name| units(name.as_bytes()))
            .collect();
        glob.matches(&names, path.ends_with('/'))
    }

    fn check(pattern: &str, matching: &[&str], others: &[&str]) {
        for path in matching {
            assert!(is_for(pattern, path), "{pattern} is for {path}");
        }
        for path in others {
            assert!(!is_for(pattern, path), "{pattern} is not for {path}");
        }
    }

    #[test]
    fn stars_and_question_marks_stay_in_a_name() {
        check("*.txt", &["a.txt", ".txt", "b/c/a.txt"], &["a.txt.gz", "a"]);
        check("a*b*c", &["abc", "a/abbc", "axbxbxc"], &["abcx", "ab"]);
        check("?", &["a", "\u{E9}", "\u{1F600}"], &["ab", ""]);
        check("a?c", &["abc"], &["a/c", "ac"]);
        check("src/*.rs", &["src/a.rs"], &["src/b/a.rs", "b/src/a.rs"]);
    }

    #[test]
    fn classes_have_ranges_names_and_their_opposite() {
        check("[a-c]", &["a", "c"], &["d", "-", "B"]);
        check("[!a-c]", &["d", "\u{E9}"], &["a", "c"]);
        check("[^a]", &["b"], &["a"]);
        check("[]a]", &["]", "a"], &["b"]);
        check("[!]a]", &["b"], &["]", "a"]);
        check("[a-]", &["a", "-"], &["b"]);
        check("[\\]-a]", &["]", "^", "a"], &["\\", "b"]);
        check("[[:digit:]x]", &["7", "x"], &["a", "["]);
        check("[[:upper:]-]*", &["Readme", "-x"], &["readme"]);
        check("[\u{E0}-\u{E9}]", &["\u{E5}"], &["a", "\u{EA}"]);
    }

    #[test]
    fn a_slash_before_the_end_counts_from_the_folder() {
        check("build", &["build", "a/build", "a/b/build/"], &["a/builds"]);
        check("/build", &["build", "build/"], &["a/build"]);
        check("a/b", &["a/b"], &["c/a/b", "a/b/c"]);
        check("build/", &["build/", "a/build/"], &["build", "a/build"]);
        check("/build/", &["build/"], &["build", "a/build/"]);
    }

    #[test]
    fn two_stars_are_any_number_of_folders() {
        check("**/a", &["a", "b/a", "b/c/a"], &["a/b", "ba"]);
        check("a/**", &["a/b", "a/b/c"], &["a", "b/a/c"]);
        check("a/**/b", &["a/b", "a/x/b", "a/x/y/b"], &["a", "b", "xa/b"]);
        check("**", &["a", "a/b"], &[]);
        check("a**b", &["ab", "axb"], &["a/b"]);
        check("**/x/**", &["x/a", "b/x/a/c"], &["x", "a/b"]);
        check("/**/a/", &["a/", "b/a/"], &["a"]);
    }

    #[test]
    fn a_backslash_takes_the_meaning() {
        check("\\*", &["*"], &["a"]);
        check("a\\?", &["a?"], &["ab"]);
        check("\\[a]", &["[a]"], &["a"]);
        check("\\\\", &["\\"], &["a"]);
    }

    #[test]
    fn names_may_be_any_bytes() {
        let glob = Glob::parse(b"?\xFF").expect("a pattern");
        assert!(glob.matches(&[units(b"a\xFF")], false));
        assert!(glob.matches(&[units(b"\xFE\xFF")], false));
        assert!(!glob.matches(&[units("a\u{FF}".as_bytes())], false));
    }

    #[test]
    fn what_is_no_pattern_is_told() {
        for pattern in ["", "/", "a//b", "[a", "[", "[]", "[!", "a\\", "[a-"] {
            assert!(Glob::parse(pattern.as_bytes()).is_err(), "{pattern}");
        }
    }

    /// A pattern of many stars takes no longer than the lengths say.
    #[test]
    fn many_stars_do_not_take_long() {
        let name = "a".repeat(2000);
        assert!(!is_for(
            &"*a".repeat(200).replace("**", "*"),
            &format!("{name}b")
        ));
        let folders = vec!["a"; 300].join("/");
        assert!(!is_for(&format!("{}b", "**/a/".repeat(50)), &folders));
    }
}
