//! Findings: document 01, "Counts and finding"; document 02, (v).

use std::array;
use std::iter::Sum;
use std::ops::{Add, AddAssign, Range};

use crate::sys;
use crate::table::{self, Row, Table, sealed::Read};

/// A finding: an item of the text with a count that is not 0.
#[derive(Debug, Clone, PartialEq, Eq, Hash)]
#[non_exhaustive]
pub struct Finding {
    /// The offset of its first byte.
    pub start: usize,
    /// The offset after its last byte.
    pub end: usize,
    /// What was found.
    pub counts: Counts,
    /// The number of characters before it.
    pub char_start: usize,
    /// The number of characters up to its end.
    pub char_end: usize,
    /// The number of UTF-16 units before it.
    pub utf16_start: usize,
    /// The number of UTF-16 units up to its end.
    pub utf16_end: usize,
}

impl Finding {
    /// Its bytes in the text.
    #[must_use]
    pub const fn span(&self) -> Range<usize> {
        self.start..self.end
    }

    /// Its characters in the text, as `str::chars` counts them.
    #[must_use]
    pub const fn char_span(&self) -> Range<usize> {
        self.char_start..self.char_end
    }

    /// Its UTF-16 units in the text, as `str::encode_utf16` counts them.
    #[must_use]
    pub const fn utf16_span(&self) -> Range<usize> {
        self.utf16_start..self.utf16_end
    }
}

/// The eight counts, in document 01's order. `tag_forced` and `decisions` add a selector each, the other six remove one
/// each.
///
/// Sums stop at the largest number, as those of document 01 do. The counts of texts do not reach it.
///
/// ```
/// use tilghorz::Counts;
///
/// let one = Counts { decisions: 1, ..Counts::default() };
/// let other = Counts { tag_forced: 2, ..Counts::default() };
/// assert_eq!((one + other).numbers(), [0, 0, 0, 0, 2, 0, 0, 1]);
/// assert_eq!([one, other, one].iter().sum::<Counts>().decisions, 2);
/// ```
#[derive(Debug, Clone, Copy, Default, PartialEq, Eq, Hash)]
pub struct Counts {
    /// Selectors where none may stand.
    pub unsanctioned: usize,
    /// FE0F between a modifier base and its modifier.
    pub modifier_defective: usize,
    /// FE0F between another base and a modifier.
    pub additional_defective: usize,
    /// FE0E before tags.
    pub tag_conflicting: usize,
    /// FE0F that is missing before tags.
    pub tag_forced: usize,
    /// FE0F before tags where the base is emoji by default.
    pub tag_redundant: usize,
    /// A selector that says what the bare base means under the policy.
    pub policy_redundant: usize,
    /// Bare bases that need a selector under the policy.
    pub decisions: usize,
}

impl Counts {
    /// The names of the counts, as document 01 has them.
    pub const NAMES: [&str; 8] = [
        "unsanctioned",
        "modifier-defective",
        "additional-defective",
        "tag-conflicting",
        "tag-forced",
        "tag-redundant",
        "policy-redundant",
        "decisions",
    ];

    /// The counts of their numbers in document 01's order.
    pub(crate) const fn of(numbers: [usize; 8]) -> Self {
        let [
            unsanctioned,
            modifier_defective,
            additional_defective,
            tag_conflicting,
            tag_forced,
            tag_redundant,
            policy_redundant,
            decisions,
        ] = numbers;
        Self {
            unsanctioned,
            modifier_defective,
            additional_defective,
            tag_conflicting,
            tag_forced,
            tag_redundant,
            policy_redundant,
            decisions,
        }
    }

    /// The counts in document 01's order.
    #[must_use]
    pub const fn numbers(&self) -> [usize; 8] {
        [
            self.unsanctioned,
            self.modifier_defective,
            self.additional_defective,
            self.tag_conflicting,
            self.tag_forced,
            self.tag_redundant,
            self.policy_redundant,
            self.decisions,
        ]
    }

    /// Each count with its name.
    pub fn named(&self) -> impl Iterator<Item = (&'static str, usize)> + use<> {
        Self::NAMES.into_iter().zip(self.numbers())
    }
}

impl Add for Counts {
    type Output = Self;

    fn add(self, other: Self) -> Self {
        let (left, right) = (self.numbers(), other.numbers());
        Self::of(array::from_fn(|count| {
            left[count].saturating_add(right[count])
        }))
    }
}

impl AddAssign for Counts {
    fn add_assign(&mut self, other: Self) {
        *self = *self + other;
    }
}

impl Sum for Counts {
    fn sum<I: Iterator<Item = Self>>(counts: I) -> Self {
        counts.fold(Self::default(), Add::add)
    }
}

impl<'a> Sum<&'a Self> for Counts {
    fn sum<I: Iterator<Item = &'a Self>>(counts: I) -> Self {
        counts.copied().sum()
    }
}

impl Row for Finding {}

impl Read for Finding {
    const BYTES: usize = sys::FINDING_BYTES;

    fn read(bytes: &[u8]) -> Self {
        let (span, rest) = bytes.split_at_checked(16).unwrap_or_default();
        let (counts, positions) = rest.split_at_checked(sys::TOTALS_BYTES).unwrap_or_default();
        let [start, end] = table::numbers(span);
        let [char_start, char_end, utf16_start, utf16_end] = table::numbers(positions);
        Self {
            start,
            end,
            counts: Counts::of(table::numbers(counts)),
            char_start,
            char_end,
            utf16_start,
            utf16_end,
        }
    }
}

impl Table<Finding> {
    /// The sums of the counts over the findings.
    #[must_use]
    pub fn totals(&self) -> Counts {
        self.iter().map(|finding| finding.counts).sum()
    }
}
