//! The values of the library have the traits that a host expects, and are the same after a round trip through a text.

use std::collections::HashSet;
use std::error::Error;
use std::fmt::{Debug, Display};
use std::hash::Hash;
use std::io::{Read, Write};
use std::str::FromStr;

use tilghorz::table::{IntoIter, Iter};
use tilghorz::{
    Around, Context, Counts, Feed, FeedReader, FeedWriter, Finding, Formatted, Item, ItemKind, Key,
    KeySet, Nearest, NoEntry, ParseKeyError, ParseNameError, Policy, Presentation, Refusal,
    Repaired, RepairedLen, SingletonRule, Store, Table, Tip, Version,
};

/// A type that can be sent to another thread and shared by several.
const fn crosses<T: Send + Sync + Debug + Clone>() {}

/// A value that can be compared and be a key of a map.
const fn compares<T: Send + Sync + Debug + Clone + Eq + Hash>() {}

/// An error that a host can box.
const fn is_error<T: Error + Send + Sync + Clone + Eq + 'static>() {}

/// A wrapper, if what it wraps can cross.
const fn wraps<T: Send + Sync + Debug>() {}

#[test]
fn types_have_their_traits() {
    compares::<Around>();
    compares::<Context>();
    compares::<Counts>();
    compares::<Finding>();
    compares::<Formatted>();
    compares::<Item>();
    compares::<ItemKind>();
    compares::<Key>();
    compares::<KeySet>();
    compares::<Nearest>();
    compares::<Policy>();
    compares::<Presentation>();
    compares::<Repaired<'_>>();
    compares::<RepairedLen>();
    compares::<SingletonRule>();
    compares::<Table<Finding>>();
    compares::<Table<Item>>();
    compares::<Table<Tip>>();
    compares::<Tip>();
    compares::<Version>();
    crosses::<Feed>();
    crosses::<Store>();
    crosses::<Iter<'_, Finding>>();
    crosses::<IntoIter<Finding>>();
    is_error::<Refusal>();
    is_error::<NoEntry>();
    is_error::<ParseKeyError>();
    is_error::<ParseNameError>();
    wraps::<FeedWriter<Vec<u8>>>();
    wraps::<FeedReader<&[u8]>>();
}

/// A writer and a reader that are handed on as trait objects.
#[test]
fn a_feed_is_a_writer_and_a_reader() {
    let policy = Policy::default();
    let text = "1\u{FE0E} and plain";
    let mut writer = FeedWriter::new(&policy, Vec::new());
    let object: &mut dyn Write = &mut writer;
    object.write_all(text.as_bytes()).expect("written");
    writer.finish().expect("an end");
    let mut out = Vec::new();
    let mut reader: Box<dyn Read + Send> = Box::new(FeedReader::new(&policy, text.as_bytes()));
    reader.read_to_end(&mut out).expect("read");
    assert_eq!(out, b"1 and plain");
    assert_eq!(writer.into_inner(), out);
}

/// A value is displayed as a text that is parsed to it, and any other text is no value.
fn round_trips<T>(values: impl IntoIterator<Item = T>)
where
    T: FromStr + Display + Debug + PartialEq,
    T::Err: Debug + Display,
{
    for value in values {
        let text = value.to_string();
        assert_eq!(text.parse::<T>().expect("a value"), value);
        for other in [format!("{text} "), format!("{text}x"), text.to_uppercase()] {
            if other != text {
                other.parse::<T>().expect_err("no value");
            }
        }
    }
    "".parse::<T>().expect_err("no value");
}

#[test]
fn texts_are_parsed_to_what_they_were_made_from() {
    round_trips(Key::all().filter(|key| key.context() == Context::Keycap));
    round_trips(KeySet::ALL);
    round_trips(Context::ALL);
    round_trips(Presentation::ALL);
    for key in Key::all() {
        assert_eq!(key.to_string().parse(), Ok(key));
    }
    let policy = Policy::default();
    assert_eq!(policy.to_string().parse(), Ok(policy));
}

#[test]
fn texts_that_are_no_key_are_refused() {
    for text in [
        "2764",
        "u(2764",
        "u2764)",
        "u(02764)",
        "u(+031)",
        "u(31)",
        "u(276D)x",
        "keycap:",
        "keycap:u()",
        "Keycap:u(0031)",
        "keycap:keycap:u(0031)",
        "u(FFFFFFFFF)",
        "u(D800)",
        "u(110000)",
    ] {
        assert_eq!(text.parse::<Key>(), Err(ParseKeyError::Form), "{text}");
    }
    let no_entry = ParseKeyError::NoEntry(NoEntry('\u{FE0F}'));
    assert_eq!("keycap:u(FE0F)".parse::<Key>(), Err(no_entry));
    assert!(
        no_entry
            .to_string()
            .starts_with("U+FE0F has no variation sequence")
    );
    let told = "other".parse::<KeySet>().expect_err("no set").to_string();
    assert_eq!(told, "not a key set: it is prefer_bare or bare_as_text");
}

/// Keys go by code point, ordinary before keycap: the order of the memberships in document 02, (viii).
#[test]
fn keys_are_in_order() {
    let keys: Vec<Key> = Key::all().collect();
    assert_eq!(keys.len(), 2 * tilghorz::variation_entries().len());
    assert!(keys.is_sorted_by(|first, second| first < second));
    assert_eq!(keys.iter().collect::<HashSet<_>>().len(), keys.len());
    let text = "1\u{20E3} 1 \u{2764} \u{A9}\u{FE0F}\u{20E3}".as_bytes();
    let tips = tilghorz::tips(text, &Policy::default()).expect("a text");
    let tipped = tips.iter().map(|tip| tip.key().expect("an entry"));
    assert!(tips.len() > 4 && tipped.is_sorted());
    let padded = format!("{:>9}|{:<8}|", keys[0], Context::Keycap);
    assert_eq!(padded, "  u(0023)|keycap  |");
}

/// What a policy says by key is what it says by character and context, and a flip changes one membership.
#[test]
fn a_policy_speaks_of_keys() {
    let policy = Policy::default();
    for key in Key::all() {
        let rule = policy.rule(key);
        assert_eq!(
            policy.singleton_rule(key.character(), key.context()),
            Some(rule)
        );
        let bare: String = [key.character()]
            .into_iter()
            .chain((key.context() == Context::Keycap).then_some('\u{20E3}'))
            .collect();
        let decisions = tilghorz::default_decisions(bare.as_bytes(), &policy, 0);
        let decided = decisions
            .ok()
            .and_then(|decisions| decisions.first().copied());
        assert_eq!(rule.default_decision(), decided, "{key} {rule}");
        for set in KeySet::ALL {
            let mut flipped = policy.clone();
            assert_eq!(flipped.flip(set, key), !policy.holds(set, key));
            let differs = |key: &Key, set| policy.holds(set, *key) != flipped.holds(set, *key);
            let changed = KeySet::ALL.map(|set| Key::all().filter(|key| differs(key, set)).count());
            assert_eq!(changed, KeySet::ALL.map(|other| usize::from(other == set)));
            flipped.flip(set, key);
            assert_eq!(flipped, policy);
        }
    }
}

#[test]
fn a_policy_is_made_from_its_bytes() {
    let policy = Policy::default();
    let bytes: &[u8] = policy.as_ref();
    assert_eq!(bytes, policy.as_bytes());
    assert_eq!(Policy::try_from(bytes), Ok(policy.clone()));
    assert_eq!(Policy::try_from(&bytes[1..]), Err(Refusal::NotAPolicy));
}

#[test]
fn counts_add_up_and_stop_at_the_largest_number() {
    let of = |decisions| Counts {
        decisions,
        tag_forced: 1,
        ..Counts::default()
    };
    let counts = [of(1), of(2), of(3)];
    let mut added = Counts::default();
    for count in counts {
        added += count;
    }
    assert_eq!(added, counts.iter().sum());
    assert_eq!(added, counts.into_iter().sum());
    assert_eq!(added.numbers(), [0, 0, 0, 0, 3, 0, 0, 6]);
    assert_eq!((of(usize::MAX) + of(1)).decisions, usize::MAX);
    assert!(added.named().any(|count| count == ("decisions", 6)));
}

#[test]
fn names_are_those_of_the_documents() {
    let kinds = ItemKind::ALL.map(|kind| kind.to_string());
    assert_eq!(
        kinds,
        [
            "passthrough",
            "unsanctioned-selectors",
            "links-only",
            "emoji-headed"
        ]
    );
    let rule = Policy::default().rule(Key::new('\u{2764}', Context::Ordinary).expect("an entry"));
    assert_eq!(
        (rule.to_string(), format!("{rule:?}")),
        ("BareToText".into(), "BareToText".into())
    );
    assert_eq!(Presentation::ALL.map(u8::from), [0, 1]);
}

#[test]
fn findings_are_members_of_sets() {
    let text = "\u{2764}\u{2764} \u{2764}".as_bytes();
    let findings = tilghorz::findings(text, &Policy::default()).expect("a text");
    let set: HashSet<Finding> = findings.clone().into_iter().collect();
    assert_eq!(set.len(), findings.len());
    assert!(set.contains(&findings.get(2).expect("a finding")));
    let counts: HashSet<Counts> = set.iter().map(|finding| finding.counts).collect();
    assert_eq!(counts.len(), 1);
}
