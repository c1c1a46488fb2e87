//! The crate evfmt's answers in the forms that the library answers in: bytes of texts, tables and policies.

use std::ops::Range;

use evfmt::internals::VARIATION_ENTRIES;
use evfmt::scanner::EmojiSequence;
use evfmt::{
    Finding, FormatResult, NonCanonicality, Policy, PolicyKeySet, Presentation, ScanKind,
    analyze_scan_item, format_text, scan,
};

use crate::reference::policy::{place, version};
use crate::words;

/// The bytes of a policy: the version of the tables and the words of its four sets, lowest byte first. The crate's
/// policy has no version.
#[must_use]
pub fn policy_bytes(policy: Policy) -> Vec<u8> {
    let (prefer_bare, bare_as_text) = policy_sets(policy);
    let words = [
        &[version()],
        &words(&prefer_bare)[..],
        &words(&bare_as_text),
    ]
    .concat();
    words.iter().flat_map(|word| word.to_le_bytes()).collect()
}

/// The two sets of a policy. Its fields are private; its `modify_*` functions hand the sets to a closure.
#[must_use]
pub fn policy_sets(policy: Policy) -> (PolicyKeySet, PolicyKeySet) {
    let mut sets = (PolicyKeySet::none(), PolicyKeySet::none());
    let _ = policy
        .modify_prefer_bare(|set| {
            sets.0 = set;
            set
        })
        .modify_bare_as_text(|set| {
            sets.1 = set;
            set
        });
    sets
}

/// The policy of bytes that are one.
#[must_use]
pub fn policy(bytes: &[u8]) -> Policy {
    let set = |number: usize, single: fn(char) -> PolicyKeySet| {
        let is_member = |entry| {
            let (byte, bit) = place(number, entry);
            bytes[byte] & bit != 0
        };
        let members = VARIATION_ENTRIES.iter().enumerate();
        members
            .filter(|(entry, _)| is_member(*entry))
            .fold(PolicyKeySet::none(), |set, (_, &base)| set | single(base))
    };
    let key_set = |first| {
        set(first, PolicyKeySet::singleton) | set(first + 1, PolicyKeySet::singleton_keycap)
    };
    Policy::default()
        .with_prefer_bare(key_set(0))
        .with_bare_as_text(key_set(2))
}

/// The formatted text, if the text changes.
#[must_use]
pub fn formatted(text: &str, policy: &Policy) -> Option<Vec<u8>> {
    match format_text(text, policy) {
        FormatResult::Unchanged => None,
        FormatResult::Changed(text) => Some(text.into_bytes()),
    }
}

/// The memberships whose flip alters the text, as a table of three numbers each. The text is formatted for each of them.
#[must_use]
pub fn tips(text: &str, policy: &Policy) -> Vec<u8> {
    let before = formatted(text, policy);
    let (prefer_bare, bare_as_text) = policy_sets(policy.clone());
    let mut table = Vec::new();
    for &base in VARIATION_ENTRIES {
        let singles = [
            PolicyKeySet::singleton(base),
            PolicyKeySet::singleton_keycap(base),
        ];
        for (keycap, single) in singles.into_iter().enumerate() {
            let flips = [
                policy.clone().with_prefer_bare(prefer_bare ^ single),
                policy.clone().with_bare_as_text(bare_as_text ^ single),
            ];
            for (set, flipped) in flips.iter().enumerate() {
                if formatted(text, flipped) != before {
                    let row = [u64::from(u32::from(base)), keycap as u64, set as u64];
                    table.extend(row.into_iter().flat_map(u64::to_le_bytes));
                }
            }
        }
    }
    table
}

/// The bytes of a finding as the crate has it: ten numbers, without positions in characters and UTF-16 units.
pub const FINDING_BYTES: usize = 80;

/// The findings as a table of ten numbers each.
#[must_use]
pub fn findings(text: &str, policy: &Policy) -> Vec<u8> {
    let mut table = Vec::new();
    for finding in each_finding(text, policy) {
        push_span(&mut table, &finding.span);
        for count in counts(finding.non_canonicality()) {
            table.extend((count as u64).to_le_bytes());
        }
    }
    table
}

/// The items as a table of three numbers each: start, end and kind.
#[must_use]
pub fn items(text: &str) -> Vec<u8> {
    let mut table = Vec::new();
    for item in scan(text) {
        push_span(&mut table, &item.span);
        let kind: u64 = match item.kind {
            ScanKind::Passthrough => 0,
            ScanKind::UnsanctionedPresentationSelectors(_) => 1,
            ScanKind::EmojiSequence(EmojiSequence::LinksOnly(_)) => 2,
            _ => 3,
        };
        table.extend(kind.to_le_bytes());
    }
    table
}

/// The defaults of the decisions of the finding that starts at the offset.
#[must_use]
pub fn defaults(text: &str, policy: &Policy, offset: u64) -> Option<Vec<u8>> {
    let finding = finding_at(text, policy, offset)?;
    let decisions = finding.default_decisions();
    Some(
        decisions
            .map(|decision| (decision == Presentation::Emoji).into())
            .collect(),
    )
}

/// The text with the finding that starts at the offset replaced under decisions of 0 and 1. None if there is no such
/// finding, or the decisions are too few or many.
#[must_use]
pub fn mended(text: &str, policy: &Policy, offset: u64, decisions: &[u8]) -> Option<Vec<u8>> {
    let finding = finding_at(text, policy, offset)?;
    let presentation = |&decision: &u8| match decision {
        0 => Presentation::Text,
        _ => Presentation::Emoji,
    };
    let decisions: Vec<Presentation> = decisions.iter().map(presentation).collect();
    let replacement = finding.canonical_replacement_with_decisions(&decisions)?;
    let (before, after) = (&text[..finding.span.start], &text[finding.span.end..]);
    Some([before, &replacement, after].concat().into_bytes())
}

/// The findings of a text.
fn each_finding<'a>(text: &'a str, policy: &'a Policy) -> impl Iterator<Item = Finding<'a>> {
    scan(text).filter_map(|item| analyze_scan_item(&item, policy))
}

/// The finding that starts at the offset.
fn finding_at<'a>(text: &'a str, policy: &Policy, offset: u64) -> Option<Finding<'a>> {
    scan(text)
        .find(|item| item.span.start as u64 == offset)
        .and_then(|item| analyze_scan_item(&item, policy))
}

/// Adds a start and an end to a table.
fn push_span(table: &mut Vec<u8>, span: &Range<usize>) {
    table.extend((span.start as u64).to_le_bytes());
    table.extend((span.end as u64).to_le_bytes());
}

/// The eight counts in document 01's order.
#[must_use]
pub const fn counts(of: NonCanonicality) -> [usize; 8] {
    [
        of.unsanctioned_selectors,
        of.modifier_defective_selectors,
        of.additional_defective_selectors,
        of.tag_conflicting_selectors,
        of.tag_forced_presentations,
        of.tag_redundant_selectors,
        of.policy_redundant_selectors,
        of.presentation_decisions,
    ]
}
