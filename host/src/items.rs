//! The parts of the items: texts with their items, and the findings under policies. [`GRAMMAR`] says what the lines
//! are; the texts are those of [`texts`], the fields are made by [`notation`].

use evfmt::internals::UNICODE_VERSION;
use evfmt::{Policy, PolicyKeySet, analyze_scan_item, scan};

use crate::beside::policy_sets;
use crate::policy::coin_keys;
use crate::{Random, Record, notation, texts, words};

/// The form of the parts, which is also their head, after a line that says which texts they have.
pub const GRAMMAR: &str = "\
#
# Lines that begin with # are comments and stand only here. Every other line is a keyword and fields, each after
# one blank, and ends with one line feed. The lines: policies, then texts, each before its lines `under`, and `end`.
#   policy 24 W   a policy: the words, 16 hexadecimal digits each, of prefer_bare ordinary, prefer_bare keycap,
#                 bare_as_text ordinary, bare_as_text keycap; counted from 0, which is the default policy
#   text T I ..   a text, 2 hexadecimal digits a byte, ended by a full stop; and its items, in order
#   under D F ..  the findings in that text under the policy of this number, in order
#   end           the last line
# An item I is its kind, its first byte, -, the byte after its last, ! if its tags are not complete, and its parts:
#   p  passthrough
#   s  selectors that are unsanctioned, and S
#   l  links, as many z S
#   e  emoji-headed: a unit, as many j S with a unit, as many z S
# A unit is a stem and its modifications. C is a code point in 5 hexadecimal digits. A stem is
#   b C S          one emoji
#   f C S , C S    a flag
# and a modification is
#   m C S    a modifier
#   k S      a keycap
#   g        tags, as many runs of tags: r, 2 hexadecimal digits for each byte of the tags, and S
# S is nothing where there is no selector, or else the letters of the first two, t for FE0E and e for FE0F, and how
# many there are. The blanks of this grammar do not stand in an item.
# A finding F is its first byte, -, the byte after its last, :, the counts that are not 0, each after its letter, in
# this order: u unsanctioned, m modifier-defective, a additional-defective, c tag-conflicting, f tag-forced,
# r tag-redundant, p policy-redundant, d decisions; then :, the choices, one for each decision, and replacements, each
# = and 2 hexadecimal digits a byte: by default; if there are decisions, with all text and with all emoji; and if there
# are two decisions or more, with emoji and text by turns. A choice is its default, t or e, and the two replacements of
# its unit, as text and as emoji, each + and 2 hexadecimal digits a byte.
";

/// The part with the worked texts and the short texts.
#[must_use]
pub fn short() -> String {
    let mut texts = texts::worked();
    texts.extend(texts::short());
    answers(
        "worked texts, and every short text over an alphabet of the classes",
        &texts,
    )
}

/// The part with drawn texts.
#[must_use]
pub fn drawn() -> String {
    answers("drawn texts", &texts::drawn())
}

/// The part with Unicode's own sequences.
#[must_use]
pub fn unicode() -> String {
    answers(
        "Unicode's variation sequences, modifier bases, and well-known emoji sequences",
        &texts::unicode(),
    )
}

/// The text of a part.
fn answers(what: &str, texts: &[String]) -> String {
    let mut out = format!(
        "# Answers of the crate evfmt on items: {what}.
# Made in host/ by: cargo run --offline --release --bin stored-answers -- make
{GRAMMAR}# The tables are of Unicode {UNICODE_VERSION}.
"
    );
    let policies = policies();
    for policy in &policies {
        let (prefer_bare, bare_as_text) = policy_sets(policy.clone());
        Record::new("policy")
            .words(&words(&prefer_bare))
            .words(&words(&bare_as_text))
            .end(&mut out);
    }
    let mut random = Random::new();
    for text in texts {
        push_text(&mut out, text);
        // The default policy, and one of the others.
        for number in [0, 1 + random.below(policies.len() - 1)] {
            push_findings(&mut out, text, number, &policies[number]);
        }
    }
    Record::new("end").end(&mut out);
    out
}

/// The line `text`.
fn push_text(out: &mut String, text: &str) {
    scan(text)
        .map(|item| notation::item(&item))
        .fold(
            Record::new("text").field(crate::hexadecimal(text) + "."),
            Record::field,
        )
        .end(out);
}

/// The line `under` of a policy.
fn push_findings(out: &mut String, text: &str, number: usize, policy: &Policy) {
    scan(text)
        .filter_map(|item| analyze_scan_item(&item, policy))
        .map(|finding| notation::finding(&finding))
        .fold(Record::new("under").field(number), Record::field)
        .end(out);
}

/// The policies: the default one, the four that say the same of every base, and two drawn ones.
fn policies() -> Vec<Policy> {
    let mut random = Random::new();
    let (none, all) = (PolicyKeySet::none(), PolicyKeySet::all());
    let mut sets = vec![(none, none), (none, all), (all, none), (all, all)];
    for _ in 0..2 {
        sets.push((coin_keys(&mut random), coin_keys(&mut random)));
    }
    let made = sets.into_iter().map(|(prefer_bare, bare_as_text)| {
        Policy::default()
            .with_prefer_bare(prefer_bare)
            .with_bare_as_text(bare_as_text)
    });
    std::iter::once(Policy::default()).chain(made).collect()
}
