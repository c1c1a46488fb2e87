//! Policies: members by character and context mean to the library what they mean here.

use std::fs;
use std::path::Path;

use tilghorz::{
    Context, KeySet, NoEntry, Policy, Refusal, SingletonRule, Tip, Version, variation_entries,
};

/// The selectors.
const TEXT: char = '\u{FE0E}';
const EMOJI: char = '\u{FE0F}';

/// A base in a context, with a selector or bare.
fn text(base: char, selector: Option<char>, context: Context) -> String {
    let keycap = (context == Context::Keycap).then_some('\u{20E3}');
    [Some(base), selector, keycap]
        .into_iter()
        .flatten()
        .collect()
}

/// What formatting makes of a text.
fn formatted(text: &str, policy: &Policy) -> String {
    let bytes = tilghorz::format(text.as_bytes(), policy).expect("a text");
    String::from_utf8(bytes.into_owned()).expect("a text")
}

/// What becomes of a base that is bare, with FE0E and with FE0F, under a rule.
fn expected(rule: SingletonRule) -> [Option<char>; 3] {
    match rule {
        SingletonRule::BareToText => [Some(TEXT), Some(TEXT), Some(EMOJI)],
        SingletonRule::BareToEmoji => [Some(EMOJI), Some(TEXT), Some(EMOJI)],
        SingletonRule::TextToBare => [None, None, Some(EMOJI)],
        SingletonRule::EmojiToBare => [None, Some(TEXT), None],
    }
}

/// Puts a base into a key set or takes it out.
fn put(policy: &mut Policy, set: KeySet, base: char, context: Context, is_in: bool) {
    let was_in = policy.contains(set, base, context);
    let is_changed = if is_in {
        policy.add(set, base, context)
    } else {
        policy.take(set, base, context)
    };
    assert_eq!(is_changed, Ok(was_in != is_in));
    assert_eq!(policy.contains(set, base, context), is_in);
}

/// Each character of Unicode's file has a line with FE0E.
#[test]
fn the_entries_are_unicodes() {
    let folder = Path::new(env!("CARGO_MANIFEST_DIR")).join("../../crates/published_data/data");
    let file = fs::read_to_string(folder.join("emoji-variation-sequences.txt")).expect("the file");
    let character = |line: &str| {
        let (code_point, _) = line.split_once(" FE0E ")?;
        char::from_u32(u32::from_str_radix(code_point, 16).ok()?)
    };
    let mut published: Vec<char> = file.lines().filter_map(character).collect();
    published.sort_unstable();
    assert!(published.len() > 300, "{} characters", published.len());
    assert_eq!(variation_entries(), published);
}

#[test]
fn every_member_is_obeyed_in_its_context_alone() {
    let default = Policy::default();
    for &base in variation_entries() {
        for context in Context::ALL {
            for (in_prefer_bare, in_bare_as_text) in
                [(false, false), (false, true), (true, false), (true, true)]
            {
                let mut policy = default.clone();
                put(
                    &mut policy,
                    KeySet::PreferBare,
                    base,
                    context,
                    in_prefer_bare,
                );
                put(
                    &mut policy,
                    KeySet::BareAsText,
                    base,
                    context,
                    in_bare_as_text,
                );
                for asked in Context::ALL {
                    let rule = policy.singleton_rule(base, asked).expect("an entry");
                    if asked != context {
                        assert_eq!(Some(rule), default.singleton_rule(base, asked));
                    }
                    for (selector, kept) in [None, Some(TEXT), Some(EMOJI)]
                        .into_iter()
                        .zip(expected(rule))
                    {
                        let found = formatted(&text(base, selector, asked), &policy);
                        assert_eq!(
                            found,
                            text(base, kept, asked),
                            "{base:?} {selector:?} {asked:?} {rule:?}"
                        );
                    }
                }
                assert_eq!(Policy::from_bytes(policy.as_bytes()), Ok(policy));
            }
        }
    }
}

#[test]
fn members_are_those_that_are_contained() {
    let policy = Policy::default();
    for set in KeySet::ALL {
        for context in Context::ALL {
            let members: Vec<char> = policy.members(set, context).collect();
            let entries = variation_entries().iter().copied();
            let contained: Vec<char> = entries
                .filter(|&entry| policy.contains(set, entry, context))
                .collect();
            assert_eq!(members, contained);
        }
    }
    assert!(policy.contains(KeySet::PreferBare, '1', Context::Ordinary));
    assert!(!policy.contains(KeySet::PreferBare, '1', Context::Keycap));
}

#[test]
fn no_policy_speaks_of_another_character() {
    let mut policy = Policy::default();
    for other in ['a', '\u{FE0F}', '\u{1F1E6}', '\u{10FFFF}'] {
        assert_eq!(
            policy.add(KeySet::PreferBare, other, Context::Ordinary),
            Err(NoEntry(other))
        );
        assert_eq!(
            policy.take(KeySet::BareAsText, other, Context::Keycap),
            Err(NoEntry(other))
        );
        assert!(!policy.contains(KeySet::PreferBare, other, Context::Ordinary));
        assert_eq!(policy.singleton_rule(other, Context::Ordinary), None);
    }
    assert_eq!(policy, Policy::default());
    let message = NoEntry('a').to_string();
    assert_eq!(
        message,
        "U+0061 has no variation sequence, so a policy cannot speak of it"
    );
}

#[test]
fn bytes_that_are_not_a_policy_are_refused() {
    let bytes = *Policy::default().as_bytes();
    for length in [0, 1, 8, 192, 199] {
        assert_eq!(
            Policy::from_bytes(&bytes[..length]),
            Err(Refusal::NotAPolicy)
        );
    }
    assert_eq!(
        Policy::from_bytes(&[&bytes[..], &[0]].concat()),
        Err(Refusal::NotAPolicy)
    );
    let set_bytes = (bytes.len() - 8) / 4;
    for set in 0..4 {
        for bit in variation_entries().len()..8 * set_bytes {
            let mut bytes = bytes;
            bytes[8 + set_bytes * set + bit / 8] |= 1 << (bit % 8);
            assert_eq!(Policy::from_bytes(&bytes), Err(Refusal::NotAPolicy));
        }
    }
}

#[test]
fn the_memberships_that_decide_a_text_are_those_whose_flip_alters_it() {
    let text = "1 2\u{FE0E}\u{20E3} \u{2764}\u{FE0F} \u{231A}\u{FE0E}\u{1F3FB} \u{A9}\u{E0061}";
    let policy = Policy::default();
    let before = formatted(text, &policy);
    let mut expected = Vec::new();
    for &character in variation_entries() {
        for context in Context::ALL {
            for set in KeySet::ALL {
                let mut flipped = policy.clone();
                let is_in = policy.contains(set, character, context);
                put(&mut flipped, set, character, context, !is_in);
                if formatted(text, &flipped) != before {
                    expected.push(Tip {
                        character,
                        context,
                        set,
                    });
                }
            }
        }
    }
    let tips = tilghorz::tips(text.as_bytes(), &policy).expect("taken");
    assert_eq!(tips.iter().collect::<Vec<_>>(), expected);
    assert!(expected.is_sorted() && !expected.is_empty());
}

#[test]
fn a_policy_of_another_version_is_refused_before_its_unused_bits_are_tested() {
    let bytes = *Policy::default().as_bytes();
    assert_eq!(Version::of_policy(&bytes), Some(tilghorz::version()));
    for bit in 0..64 {
        let mut bytes = bytes;
        bytes[bit / 8] ^= 1 << (bit % 8);
        assert_eq!(Policy::from_bytes(&bytes), Err(Refusal::OtherVersion));
        bytes[199] = 0x80;
        assert_eq!(Policy::from_bytes(&bytes), Err(Refusal::OtherVersion));
        assert_eq!(Policy::from_bytes(&bytes[..199]), Err(Refusal::NotAPolicy));
    }
    let version = Version::of_word(14 * 256 + 1);
    assert_eq!(
        (version.to_string(), version < tilghorz::version()),
        ("14.1".to_owned(), true)
    );
    assert_eq!(Version::of_policy(&[0; 7]), None);
}

#[test]
fn a_policy_is_carried_over_from_other_tables() {
    let entries = variation_entries();
    let policy: Policy = "30-39,2764\n\n2764\n\n".parse().expect("a sheet");
    let mut stored = policy.as_bytes().to_vec();
    stored[..8].fill(7);
    assert_eq!(Policy::carried(entries, &stored), Ok(policy.clone()));
    // Without the first entry every other one has another place, and the first gets its default memberships.
    let default = Policy::default();
    let mut first = policy.clone();
    for set in KeySet::ALL {
        for context in Context::ALL {
            if default.contains(set, entries[0], context) {
                first.add(set, entries[0], context).expect("an entry");
            }
        }
    }
    let shifted: Vec<u8> = stored[8..]
        .chunks(48)
        .flat_map(|set| {
            let bit = |place: usize| {
                set.get(place / 8)
                    .is_some_and(|byte| byte >> (place % 8) & 1 == 1)
            };
            (0..48)
                .map(move |byte| {
                    (0..8).fold(0, |bits, place| {
                        bits | u8::from(bit(8 * byte + place + 1)) << place
                    })
                })
                .collect::<Vec<u8>>()
        })
        .collect();
    let old = [&stored[..8], &shifted].concat();
    assert_eq!(Policy::carried(&entries[1..], &old), Ok(first));
    assert_eq!(Policy::carried(&[], &[0; 8]), Ok(default));
    assert_eq!(
        Policy::carried(&['#', '#'], &[0; 40]),
        Err(Refusal::NotAnEntryList)
    );
    assert_eq!(
        Policy::carried(&['#'], &[0xFF; 40]),
        Err(Refusal::NotAPolicy)
    );
}
