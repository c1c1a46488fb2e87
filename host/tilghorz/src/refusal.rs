//! The refusals: document 01, "Turned back", and those that document 02 adds.

use std::error::Error;
use std::fmt::{self, Display, Formatter};

use crate::sys::POLICY_BYTES;
use crate::version;

/// Why a call was turned back. It then wrote to no buffer.
///
/// ```
/// use tilghorz::{Policy, Refusal};
///
/// let refusal = tilghorz::format(b"good\xFF", &Policy::default()).expect_err("it is damaged");
/// assert_eq!((refusal.number(), refusal.value()), (3, Some(4)));
/// assert_eq!(refusal.to_string(), "not well-formed UTF-8 at byte 4");
/// ```
///
/// The tests come in the order of the numbers, each only in calls that take the thing. A call on a feed tests 9 and 10
/// first, reading a sheet tests 11 and 12 before 8, and beginning a store tests its buffer, 8, first. Of a policy, the
/// length (2) is tested first, then the version (15), then the unused bits (2). Carrying a policy over tests 16 first, and
/// not 15.
#[derive(Debug, Clone, Copy, PartialEq, Eq, Hash)]
#[non_exhaustive]
pub enum Refusal {
    /// 1: the text is over 16,777,216 bytes.
    TextTooLong,
    /// 2: the bytes are not a policy: not 200, or with an unused bit set.
    NotAPolicy,
    /// 3: the text is not well-formed UTF-8.
    NotWellFormed {
        /// The length of the longest well-formed beginning: the offset of the damage.
        valid_up_to: usize,
    },
    /// 4: no finding starts at the offset.
    NoFinding,
    /// 5: too few decisions, or too many.
    WrongNumberOfDecisions {
        /// How many the finding needs.
        wanted: usize,
    },
    /// 6: a decision byte is above 1.
    BadDecision {
        /// The index of the first such byte.
        index: usize,
    },
    /// 7: the table is too short.
    TableTooShort {
        /// The places that it needs.
        places: usize,
    },
    /// 8: the output is too short.
    OutputTooShort {
        /// The length that it needs.
        wanted: usize,
    },
    /// 9: the feed has ended.
    FeedEnded,
    /// 10: the thread ends inside a character.
    UnfinishedCharacter,
    /// 11: the bytes do not follow the form of a policy sheet.
    NotASheet {
        /// The offset of the first byte such that no sheet begins with the bytes up to it, or the length of a sheet that
        /// breaks off, or the start of a range that runs down; the smallest of these.
        offset: usize,
    },
    /// 12: a code point of a policy sheet is no variation entry.
    NotAnEntry {
        /// The offset of the first such code point.
        offset: usize,
    },
    /// 13: a client above 15, a number above 255, filing under a number in use, or releasing one not in use.
    BadClientOrNumber,
    /// 14: the bytes do not fit the store.
    DoesNotFit {
        /// How many bytes would fit; for a new store, its capacity.
        fits: usize,
    },
    /// 15: the policy is of another Unicode version than the tables.
    OtherVersion,
    /// 16: the old entries do not ascend, or the old policy has another number of words than they want.
    NotAnEntryList,
}

impl Refusal {
    /// The refusal of a number and a value, as they cross.
    pub(crate) const fn of_row(number: u64, value: usize) -> Option<Self> {
        Some(match number {
            1 => Self::TextTooLong,
            2 => Self::NotAPolicy,
            3 => Self::NotWellFormed { valid_up_to: value },
            4 => Self::NoFinding,
            5 => Self::WrongNumberOfDecisions { wanted: value },
            6 => Self::BadDecision { index: value },
            7 => Self::TableTooShort { places: value },
            8 => Self::OutputTooShort { wanted: value },
            9 => Self::FeedEnded,
            10 => Self::UnfinishedCharacter,
            11 => Self::NotASheet { offset: value },
            12 => Self::NotAnEntry { offset: value },
            13 => Self::BadClientOrNumber,
            14 => Self::DoesNotFit { fits: value },
            15 => Self::OtherVersion,
            16 => Self::NotAnEntryList,
            _ => return None,
        })
    }

    /// Its number in the table of refusals.
    #[must_use]
    pub const fn number(self) -> u8 {
        match self {
            Self::TextTooLong => 1,
            Self::NotAPolicy => 2,
            Self::NotWellFormed { .. } => 3,
            Self::NoFinding => 4,
            Self::WrongNumberOfDecisions { .. } => 5,
            Self::BadDecision { .. } => 6,
            Self::TableTooShort { .. } => 7,
            Self::OutputTooShort { .. } => 8,
            Self::FeedEnded => 9,
            Self::UnfinishedCharacter => 10,
            Self::NotASheet { .. } => 11,
            Self::NotAnEntry { .. } => 12,
            Self::BadClientOrNumber => 13,
            Self::DoesNotFit { .. } => 14,
            Self::OtherVersion => 15,
            Self::NotAnEntryList => 16,
        }
    }

    /// What is returned beside the number, where the table has something.
    #[must_use]
    pub const fn value(self) -> Option<usize> {
        match self {
            Self::TextTooLong
            | Self::NotAPolicy
            | Self::NoFinding
            | Self::FeedEnded
            | Self::UnfinishedCharacter
            | Self::BadClientOrNumber
            | Self::OtherVersion
            | Self::NotAnEntryList => None,
            Self::NotWellFormed { valid_up_to } => Some(valid_up_to),
            Self::WrongNumberOfDecisions { wanted } | Self::OutputTooShort { wanted } => {
                Some(wanted)
            }
            Self::BadDecision { index } => Some(index),
            Self::TableTooShort { places } => Some(places),
            Self::NotASheet { offset } | Self::NotAnEntry { offset } => Some(offset),
            Self::DoesNotFit { fits } => Some(fits),
        }
    }
}

impl Display for Refusal {
    fn fmt(&self, out: &mut Formatter<'_>) -> fmt::Result {
        match self {
            Self::TextTooLong => write!(out, "the text is longer than 16,777,216 bytes"),
            Self::NotAPolicy => write!(
                out,
                "these bytes are not a policy: not {POLICY_BYTES}, or with a bit set that has no meaning"
            ),
            Self::NotWellFormed { valid_up_to } => {
                write!(out, "not well-formed UTF-8 at byte {valid_up_to}")
            }
            Self::NoFinding => write!(out, "no finding starts at this offset"),
            Self::WrongNumberOfDecisions { wanted: 1 } => {
                write!(out, "the finding needs exactly 1 decision")
            }
            Self::WrongNumberOfDecisions { wanted } => {
                write!(out, "the finding needs exactly {wanted} decisions")
            }
            Self::BadDecision { index } => {
                write!(
                    out,
                    "the decision at index {index} is neither 0 (text) nor 1 (emoji)"
                )
            }
            Self::TableTooShort { places } => {
                write!(out, "the table is too short: {places} places are needed")
            }
            Self::OutputTooShort { wanted } => {
                write!(out, "the output is too short: {wanted} bytes are needed")
            }
            Self::FeedEnded => write!(out, "the feed has ended"),
            Self::UnfinishedCharacter => write!(out, "the thread ends inside a character"),
            Self::NotASheet { offset } => write!(out, "not a policy sheet at byte {offset}"),
            Self::NotAnEntry { offset } => write!(out, "no variation entry at byte {offset}"),
            Self::BadClientOrNumber => write!(
                out,
                "the client or the number is out of range, or the number is in use, or not in use"
            ),
            Self::DoesNotFit { fits } => {
                write!(out, "the store has no room for it: {fits} bytes would fit")
            }
            Self::OtherVersion => write!(
                out,
                "the policy is of another version than the tables, which are of Unicode {}",
                version()
            ),
            Self::NotAnEntryList => write!(
                out,
                "the old entries do not ascend, or the old policy has another number of words than they want"
            ),
        }
    }
}

impl Error for Refusal {}

#[cfg(test)]
mod tests {
    use super::*;

    #[test]
    fn number_and_value_tell_the_refusal() {
        for number in 0..=u8::MAX {
            let Some(refusal) = Refusal::of_row(number.into(), 5) else {
                assert!(!(1..=16).contains(&number));
                continue;
            };
            assert_eq!(refusal.number(), number);
            assert_eq!(
                refusal.value().is_some(),
                ![1, 2, 4, 9, 10, 13, 15, 16].contains(&number)
            );
            assert!(refusal.value().is_none_or(|value| value == 5));
        }
    }

    #[test]
    fn messages_are_sentences_for_a_person() {
        let refusal = Refusal::NotWellFormed { valid_up_to: 17 };
        assert_eq!(refusal.to_string(), "not well-formed UTF-8 at byte 17");
        let refusal = Refusal::WrongNumberOfDecisions { wanted: 1 };
        assert_eq!(refusal.to_string(), "the finding needs exactly 1 decision");
        let refusal = Refusal::WrongNumberOfDecisions { wanted: 0 };
        assert_eq!(refusal.to_string(), "the finding needs exactly 0 decisions");
    }
}
