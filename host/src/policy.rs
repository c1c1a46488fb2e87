//! The part `policy`: key sets, their operations, and policies. [`GRAMMAR`] says what its lines are.

use evfmt::Policy;
use evfmt::internals::{UNICODE_VERSION, VARIATION_ENTRIES, singleton_rule};
use evfmt::policy_key_set::{self, PolicyKeySet};

use crate::beside::policy_sets;
use crate::{Random, Record, sizes, words};

/// The form of the part, which is also its head.
pub const GRAMMAR: &str = "\
# Answers of the crate evfmt: key sets and policies.
# Made in host/ by: cargo run --offline --release --bin stored-answers -- make
#
# Lines that begin with # are comments and stand only here. Every other line is a keyword and fields, each after
# one blank, and ends with one line feed. The fields:
#   N  a number, 3 decimal digits
#   D  a digit
#   B  a truth value, 0 or 1
#   C  a code point, 6 hexadecimal digits
#   W  a word, 16 hexadecimal digits
#   S  a key set: 12 W and 2 N, the words of the ordinary and of the keycap character set, and their sizes.
#      Entry i is at bit i mod 64 of word i/64.
#   T  a text to the end of the line, 2 hexadecimal digits a byte
# The lines, in this order; singleton and keycap take turns, so do the five for two sets, and each policy stands
# before its rules:
#   entries N N         the number of variation entries, and of words of a character set
#   size N N N N        the default policy: sizes of prefer_bare ordinary, prefer_bare keycap,
#                       bare_as_text ordinary, bare_as_text keycap
#   default 24 W        the default policy: the words of the same four
#   named NAME S        a named set
#   singleton C S       the set of this ordinary key, empty if the code point is no entry
#   keycap C S          the set of this keycap key, likewise
#   set N S             the set of this number, counted from 0; the lines below speak of these numbers
#   complement N S      of the set
#   contains N C B B    whether the set holds the ordinary key, and the keycap key
#   display N T         the text of the set
#   union N N S         of two sets, as are the next four
#   intersection N N S
#   symmetric N N S
#   difference N N S
#   equal N N B
#   policy N N N        the policy of this number, counted from 0: its prefer_bare and its bare_as_text set
#   rule N C D D        the policy's rule for the base, ordinary and before a keycap:
#                       0 BareToEmoji, 1 BareToText, 2 TextToBare, 3 EmojiToBare
#   end                 the last line
";

/// The named sets, in the order of the source file.
const NAMED: [(&str, PolicyKeySet); 8] = [
    ("ASCII", policy_key_set::ASCII),
    ("TEXT_DEFAULTS", policy_key_set::TEXT_DEFAULTS),
    ("EMOJI_DEFAULTS", policy_key_set::EMOJI_DEFAULTS),
    ("VARIATION_BASES", policy_key_set::VARIATION_BASES),
    ("KEYCAP_TEXT_DEFAULTS", policy_key_set::KEYCAP_TEXT_DEFAULTS),
    (
        "KEYCAP_EMOJI_DEFAULTS",
        policy_key_set::KEYCAP_EMOJI_DEFAULTS,
    ),
    (
        "KEYCAP_VARIATION_BASES",
        policy_key_set::KEYCAP_VARIATION_BASES,
    ),
    ("KEYCAP_RGI", policy_key_set::KEYCAP_RGI),
];

/// Pairs of sets, by their numbers in [`sample_sets`]; further ones are drawn.
#[rustfmt::skip]
const PAIRS: [(usize, usize); 29] = [
    (0, 0), (0, 1), (1, 0), (1, 1), (2, 3), (3, 2), (2, 9), (3, 4),
    (5, 8), (5, 24), (6, 7), (8, 9), (10, 11), (11, 10), (2, 12), (12, 13),
    (14, 15), (16, 17), (16, 1), (1, 17), (18, 18), (18, 21), (19, 21), (20, 22),
    (21, 22), (22, 21), (22, 23), (21, 23), (23, 23),
];

/// How many further pairs are drawn.
const DRAWN_PAIRS: usize = 9;

/// The sets whose texts are stored. The texts of the others are long, or like one of these.
const DISPLAYED: [usize; 13] = [0, 1, 2, 9, 10, 12, 13, 15, 16, 17, 18, 19, 20];

/// The sets that are asked for members.
const ASKED: [usize; 5] = [1, 4, 11, 20, 22];

/// The policies: numbers of the `prefer_bare` and the `bare_as_text` set. The first is the default policy.
const POLICIES: [(usize, usize); 7] = [(10, 11), (0, 0), (0, 1), (1, 0), (1, 1), (2, 9), (21, 22)];

/// Characters that are no variation entries: each is at an edge of a table, or of its own kind.
#[rustfmt::skip]
const OTHERS: [char; 12] = [
    '\0', '"', 'A', '\u{200D}', '\u{20E3}', '\u{D7FF}',
    '\u{E000}', '\u{FE0F}', '\u{1F1E6}', '\u{1F3FB}', '\u{E0061}', '\u{10FFFF}',
];

/// The text of the part.
#[must_use]
pub fn answers() -> String {
    let mut random = Random::new();
    let sets = sample_sets(&mut random);
    let entries = sample_entries(&mut random);
    let mut out = format!("{GRAMMAR}# The tables are of Unicode {UNICODE_VERSION}.\n");
    push_default_policy(&mut out);
    push_named_and_single_sets(&mut out);
    push_sets(&mut out, &sets, &entries);
    push_operations(&mut out, &sets, &mut random);
    push_rules(&mut out, &sets, &entries);
    Record::new("end").end(&mut out);
    out
}

/// The lines `entries`, `size` and `default`.
fn push_default_policy(out: &mut String) {
    let (prefer_bare, bare_as_text) = policy_sets(Policy::default());
    let entries = VARIATION_ENTRIES.len();
    Record::new("entries")
        .number(entries)
        .number(entries.div_ceil(64))
        .end(out);
    let sizes = [sizes(&prefer_bare), sizes(&bare_as_text)];
    sizes
        .as_flattened()
        .iter()
        .fold(Record::new("size"), |record, &size| record.number(size))
        .end(out);
    Record::new("default")
        .words(&words(&prefer_bare))
        .words(&words(&bare_as_text))
        .end(out);
}

/// The lines `named`, `singleton` and `keycap`.
fn push_named_and_single_sets(out: &mut String) {
    for (name, set) in NAMED {
        Record::new("named").field(name).key_set(&set).end(out);
    }
    for character in [entry(0), last_entry(), 'A'] {
        for (keyword, set) in [
            ("singleton", PolicyKeySet::singleton(character)),
            ("keycap", PolicyKeySet::singleton_keycap(character)),
        ] {
            Record::new(keyword)
                .code_point(character)
                .key_set(&set)
                .end(out);
        }
    }
}

/// The lines `set`, `complement`, `contains` and `display`.
fn push_sets(out: &mut String, sets: &[PolicyKeySet], entries: &[char]) {
    for (number, set) in sets.iter().enumerate() {
        Record::new("set").number(number).key_set(set).end(out);
    }
    for (number, &set) in sets.iter().enumerate() {
        Record::new("complement")
            .number(number)
            .key_set(&!set)
            .end(out);
    }
    for number in ASKED {
        for &character in entries.iter().chain(&OTHERS) {
            Record::new("contains")
                .number(number)
                .code_point(character)
                .truth(sets[number].contains(character))
                .truth(sets[number].contains_keycap(character))
                .end(out);
        }
    }
    for number in DISPLAYED {
        Record::new("display")
            .number(number)
            .text(&sets[number].to_string())
            .end(out);
    }
}

/// The lines of the operations on two sets.
fn push_operations(out: &mut String, sets: &[PolicyKeySet], random: &mut Random) {
    let numbers: Vec<usize> = (0..sets.len()).collect();
    let mut pairs = PAIRS.to_vec();
    for _ in 0..DRAWN_PAIRS {
        pairs.push((random.element(&numbers), random.element(&numbers)));
    }
    for (left, right) in pairs {
        let (a, b) = (sets[left], sets[right]);
        let record = |keyword| Record::new(keyword).number(left).number(right);
        record("union").key_set(&(a | b)).end(out);
        record("intersection").key_set(&(a & b)).end(out);
        record("symmetric").key_set(&(a ^ b)).end(out);
        record("difference").key_set(&(a - b)).end(out);
        record("equal").truth(a == b).end(out);
    }
}

/// The lines `policy` and `rule`.
fn push_rules(out: &mut String, sets: &[PolicyKeySet], entries: &[char]) {
    for (number, (prefer_bare, bare_as_text)) in POLICIES.into_iter().enumerate() {
        Record::new("policy")
            .number(number)
            .number(prefer_bare)
            .number(bare_as_text)
            .end(out);
        let policy = Policy::default()
            .with_prefer_bare(sets[prefer_bare])
            .with_bare_as_text(sets[bare_as_text]);
        for &base in entries.iter().chain(&OTHERS) {
            Record::new("rule")
                .number(number)
                .code_point(base)
                .digit(singleton_rule(&policy, base, false))
                .digit(singleton_rule(&policy, base, true))
                .end(out);
        }
    }
}

/// The numbered sets.
fn sample_sets(random: &mut Random) -> Vec<PolicyKeySet> {
    let (prefer_bare, bare_as_text) = policy_sets(Policy::default());
    let mut sets = vec![PolicyKeySet::none(), PolicyKeySet::all()];
    // 2 to 9
    sets.extend(NAMED.map(|(_, set)| set));
    // 10 to 17: the default policy, and single keys at the ends and at the first word's edge
    sets.extend([
        prefer_bare,
        bare_as_text,
        PolicyKeySet::singleton(entry(0)),
        PolicyKeySet::singleton_keycap(entry(0)),
        PolicyKeySet::singleton(entry(63)),
        PolicyKeySet::singleton_keycap(entry(64)),
        PolicyKeySet::singleton(last_entry()),
        PolicyKeySet::singleton_keycap(last_entry()),
    ]);
    // 18 to 20: a few keys, ordinary, keycap, both
    let ordinary = few_keys(random, PolicyKeySet::singleton);
    let keycap = few_keys(random, PolicyKeySet::singleton_keycap);
    let both = few_keys(random, PolicyKeySet::singleton)
        | few_keys(random, PolicyKeySet::singleton_keycap);
    sets.extend([ordinary, keycap, both]);
    // 21 to 23: each key by a coin
    sets.extend([(); 3].map(|()| coin_keys(random)));
    // 24: a set with the members of set 5, made otherwise
    sets.push(policy_key_set::TEXT_DEFAULTS | policy_key_set::EMOJI_DEFAULTS);
    sets
}

/// At most seven drawn keys.
fn few_keys(random: &mut Random, single: fn(char) -> PolicyKeySet) -> PolicyKeySet {
    (0..7)
        .map(|_| single(random.element(VARIATION_ENTRIES)))
        .fold(PolicyKeySet::none(), |set, key| set | key)
}

/// About half of all keys.
pub(crate) fn coin_keys(random: &mut Random) -> PolicyKeySet {
    let mut set = PolicyKeySet::none();
    for &entry in VARIATION_ENTRIES {
        if random.coin() {
            set |= PolicyKeySet::singleton(entry);
        }
        if random.coin() {
            set |= PolicyKeySet::singleton_keycap(entry);
        }
    }
    set
}

/// Variation entries: at the edges of words, of each default, and some drawn ones.
fn sample_entries(random: &mut Random) -> Vec<char> {
    let mut entries = vec![entry(0), '1', '\u{A9}', entry(63), entry(64), '\u{231A}'];
    entries.extend(['\u{261D}', '\u{2764}', last_entry()]);
    entries.extend([(); 6].map(|()| random.element(VARIATION_ENTRIES)));
    entries
}

/// The variation entry of a number.
fn entry(number: usize) -> char {
    VARIATION_ENTRIES[number]
}

/// The last variation entry.
fn last_entry() -> char {
    entry(VARIATION_ENTRIES.len() - 1)
}
