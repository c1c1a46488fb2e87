//! The word that a C function answers: `include/tilghorz.h`, and crates/tilghorz/specs/AnswerWord.antt.

use std::fmt::Display;

use crate::Refusal;

// A number of 64 bits is a size, and a size is a number of 64 bits. The static library is for x86-64.
#[cfg(not(target_pointer_width = "64"))]
compile_error!("the proved library is for machines of 64 bits");

/// A number that the library gave, as a size.
#[allow(clippy::cast_possible_truncation, reason = "a size has 64 bits")]
pub const fn size(number: u64) -> usize {
    number as usize
}

/// Stops: what the linked library answered is not in the header, so another library was linked.
#[cold]
#[track_caller]
pub fn foreign(answered: impl Display) -> ! {
    panic!("the linked library is not the proved one: it answers {answered}")
}

/// The number of an answer that wrote its result.
const DONE: u64 = 0;
/// The number of an answer with nothing to do.
const NOTHING: u64 = 255;
/// Where the number begins; below it is the value.
const NUMBER_SHIFT: u32 = 56;

/// What a word says: the value of a call that is done, nothing where there was nothing to do, or the refusal.
pub fn read(word: u64) -> Result<Option<usize>, Refusal> {
    let (number, value) = (word >> NUMBER_SHIFT, word & ((1 << NUMBER_SHIFT) - 1));
    let value = size(value);
    match number {
        DONE => Ok(Some(value)),
        NOTHING => Ok(None),
        _ => match Refusal::of_row(number, value) {
            Some(refusal) => Err(refusal),
            None => foreign(format_args!("{word:#018X}")),
        },
    }
}

/// Reads the word of a call that has one good answer, which is this value.
pub fn expect(word: u64, value: usize) {
    if read(word) != Ok(Some(value)) {
        foreign(format_args!(
            "{word:#018X} where it has {value} bytes to write"
        ));
    }
}

/// The number of the lowest bit of the second value.
const SECOND_SHIFT: u32 = 28;

/// The two values of an answer that has two.
pub fn read_two(word: u64) -> Result<(usize, usize), Refusal> {
    let first = (1 << SECOND_SHIFT) - 1;
    read_done(word).map(|value| (value & first, value >> SECOND_SHIFT))
}

/// The value of a call that always has something to do.
pub fn read_done(word: u64) -> Result<usize, Refusal> {
    read(word).map(Option::unwrap_or_default)
}

#[cfg(test)]
mod tests {
    use super::*;

    #[test]
    fn a_word_is_read_by_its_number_and_value() {
        assert_eq!(read(7), Ok(Some(7)));
        assert_eq!(read(0xFF00_0000_0000_0000), Ok(None));
        assert_eq!(read(0x0100_0000_0000_0000), Err(Refusal::TextTooLong));
        let refusal = Refusal::OutputTooShort { wanted: 67_108_864 };
        assert_eq!(read(0x0800_0000_0400_0000), Err(refusal));
    }

    #[test]
    fn a_word_of_two_values_has_both() {
        assert_eq!(read_two(0x0000_0000_3000_0005), Ok((5, 3)));
        assert_eq!(read_two(0x00FF_FFFF_F000_0000), Ok((0, 0xFFF_FFFF)));
        assert_eq!(read_two(0x0100_0000_0000_0000), Err(Refusal::TextTooLong));
    }

    #[test]
    #[should_panic(
        expected = "the linked library is not the proved one: it answers 0x6300000000000001"
    )]
    fn another_word_stops() {
        let _ = read(0x6300_0000_0000_0001);
    }
}
