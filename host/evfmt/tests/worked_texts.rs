//! Document 01, "Worked texts, default policy": what the crate answers to them.

use evfmt::{
    FormatResult, NonCanonicality, Policy, ScanKind, analyze_scan_item, format_text, scan,
};

/// The eight counts in document 01's order.
fn counts(of: NonCanonicality) -> [usize; 8] {
    [
        of.unsanctioned_selectors,
        of.modifier_defective_selectors,
        of.additional_defective_selectors,
        of.tag_conflicting_selectors,
        of.tag_forced_presentations,
        of.tag_redundant_selectors,
        of.policy_redundant_selectors,
        of.presentation_decisions,
    ]
}

/// A text, the formatted text, the counts summed over its items, and the spans of its items.
struct Worked {
    number: usize,
    text: &'static str,
    formatted: &'static str,
    counts: [usize; 8],
    spans: &'static [(usize, usize)],
}

/// A row of the table below.
const fn worked(
    number: usize,
    text: &'static str,
    formatted: &'static str,
    counts: [usize; 8],
    spans: &'static [(usize, usize)],
) -> Worked {
    Worked {
        number,
        text,
        formatted,
        counts,
        spans,
    }
}

/// The counts of a text without a finding.
const NONE: [usize; 8] = [0; 8];

/// The fourteen texts.
#[rustfmt::skip]
const WORKED: [Worked; 14] = [
    worked(1, "", "", NONE, &[]),
    worked(2, "1\u{FE0E}", "1", [0, 0, 0, 0, 0, 0, 1, 0], &[(0, 4)]),
    worked(3, "1\u{20E3}", "1\u{FE0E}\u{20E3}", [0, 0, 0, 0, 0, 0, 0, 1], &[(0, 4)]),
    worked(4, "\u{231A}\u{FE0F}", "\u{231A}", [0, 0, 0, 0, 0, 0, 1, 0], &[(0, 6)]),
    worked(5, "\u{231A}\u{FE0E}\u{FE0F}", "\u{231A}\u{FE0E}", [1, 0, 0, 0, 0, 0, 0, 0], &[(0, 9)]),
    worked(6, "\u{231A}\u{FE0F}\u{FE0E}", "\u{231A}", [1, 0, 0, 0, 0, 0, 1, 0], &[(0, 9)]),
    worked(7, "\u{261D}\u{FE0F}\u{1F3FB}", "\u{261D}\u{1F3FB}", [0, 1, 0, 0, 0, 0, 0, 0], &[(0, 10)]),
    worked(8, "\u{261D}\u{FE0E}\u{1F3FB}", "\u{261D}\u{FE0E}\u{1F3FB}", NONE, &[(0, 10)]),
    worked(9, "\u{2764}\u{FE0F}\u{1F3FB}", "\u{2764}\u{1F3FB}", [0, 0, 1, 0, 0, 0, 0, 0], &[(0, 10)]),
    worked(10, "\u{2764}\u{FE0E}\u{E0061}", "\u{2764}\u{FE0F}\u{E0061}", [0, 0, 0, 1, 1, 0, 0, 0], &[(0, 10)]),
    worked(11, "\u{1F1E6}\u{FE0F}\u{1F1E7}", "\u{1F1E6}\u{1F1E7}", [1, 0, 0, 0, 0, 0, 0, 0], &[(0, 11)]),
    worked(12, "\u{231A}\u{200D}\u{200D}\u{231A}", "\u{231A}\u{200D}\u{200D}\u{231A}", NONE, &[(0, 9), (9, 12)]),
    worked(13, "a\u{FE0F}", "a", [1, 0, 0, 0, 0, 0, 0, 0], &[(0, 1), (1, 4)]),
    worked(14, "\u{20E3}", "\u{20E3}", NONE, &[(0, 3)]),
];

#[test]
fn the_texts_are_numbered_as_in_the_document() {
    assert!(WORKED.iter().map(|worked| worked.number).eq(1..=14));
}

#[test]
fn the_texts_are_formatted_as_said() {
    for worked in &WORKED {
        let expected = if worked.text == worked.formatted {
            FormatResult::Unchanged
        } else {
            FormatResult::Changed(worked.formatted.to_owned())
        };
        let found = format_text(worked.text, &Policy::default());
        assert_eq!(found, expected, "text {}", worked.number);
    }
}

#[test]
fn the_items_have_the_spans_said() {
    for worked in &WORKED {
        let spans: Vec<_> = scan(worked.text)
            .map(|item| (item.span.start, item.span.end))
            .collect();
        assert_eq!(spans, worked.spans, "text {}", worked.number);
    }
}

#[test]
fn the_findings_have_the_counts_said() {
    for worked in &WORKED {
        let total = scan(worked.text)
            .filter_map(|item| analyze_scan_item(&item, &Policy::default()))
            .fold(NonCanonicality::default(), |total, finding| {
                total + finding.non_canonicality()
            });
        assert_eq!(counts(total), worked.counts, "text {}", worked.number);
    }
}

#[test]
fn a_keycap_alone_is_passthrough() {
    let kinds: Vec<_> = scan("\u{20E3}").map(|item| item.kind).collect();
    assert_eq!(kinds, [ScanKind::Passthrough]);
}

#[test]
fn the_program_example_has_the_findings_said() {
    let text = "1\u{FE0E} \u{2764}";
    let findings: Vec<_> = scan(text)
        .filter_map(|item| analyze_scan_item(&item, &Policy::default()))
        .map(|finding| (finding.span.clone(), counts(finding.non_canonicality())))
        .collect();
    assert_eq!(
        findings,
        [
            (0..4, [0, 0, 0, 0, 0, 0, 1, 0]),
            (5..8, [0, 0, 0, 0, 0, 0, 0, 1])
        ]
    );
}
