//! The bytes of an input, read from the front.

use crate::Random;
use crate::boundary::placed::Spot;
use crate::comparison::lent::MARGIN;

/// Numbers at the edges of what the calls count with.
const EDGES: [u64; 14] = [
    u64::MAX,
    u64::MAX - 1,
    1 << 63,
    (1 << 63) - 1,
    1 << 56,
    (1 << 56) - 1,
    1 << 32,
    (1 << 32) - 1,
    1 << 28,
    (1 << 28) - 1,
    1 << 24,
    (1 << 24) + 1,
    1 << 16,
    256,
];

/// What is left of an input. After its end every byte is 0.
pub struct Input<'a>(&'a [u8]);

impl<'a> Input<'a> {
    /// An input at its start.
    #[must_use]
    pub const fn new(bytes: &'a [u8]) -> Self {
        Self(bytes)
    }

    /// Whether it is at its end.
    #[must_use]
    pub const fn is_empty(&self) -> bool {
        self.0.is_empty()
    }

    /// The next byte.
    pub const fn byte(&mut self) -> u8 {
        match self.0 {
            [] => 0,
            [first, rest @ ..] => {
                self.0 = rest;
                *first
            }
        }
    }

    /// The next byte as a number below a bound that is not 0.
    pub fn below(&mut self, bound: usize) -> usize {
        usize::from(self.byte()) % bound
    }

    /// A number of two bytes.
    pub fn pair(&mut self) -> usize {
        usize::from(self.byte()) + (usize::from(self.byte()) << 8)
    }

    /// The next bytes: a byte says how many.
    pub fn bytes(&mut self) -> &'a [u8] {
        let length = usize::from(self.byte()).min(self.0.len());
        let (bytes, rest) = self.0.split_at(length);
        self.0 = rest;
        bytes
    }

    /// A number: most often a small one, else one at an edge, or one of two or of eight bytes.
    pub fn number(&mut self) -> u64 {
        match self.byte() {
            0xFF => u64::from_le_bytes(std::array::from_fn(|_| self.byte())),
            0xFE => self.pair() as u64,
            byte @ 0xF0..=0xFD => EDGES[usize::from(byte - 0xF0)],
            byte => byte.into(),
        }
    }

    /// The room for a result that wants this many bytes, in places of this many: just as much, or somewhat more or less, or
    /// more than four times as much.
    pub fn room(&mut self, wanted: usize, place: usize) -> usize {
        let byte = self.byte();
        let much = usize::from(byte / 8);
        match byte % 8 {
            0..=2 => wanted,
            3 => wanted + 1,
            4 => wanted.saturating_sub(1),
            5 if much == 31 => 4 * wanted + much * place,
            5 => wanted + much * place,
            6 => wanted.saturating_sub(much * place),
            _ => wanted * much / 32,
        }
    }

    /// The numbers of bytes around an output. Most often some are after it; else it is at the end of its allocation.
    pub const fn margins(&mut self) -> [usize; 2] {
        let byte = self.byte();
        let after = if byte < 0xE0 { MARGIN } else { 0 };
        [byte as usize % 17, after]
    }

    /// Where a slice stands in its allocation.
    pub fn spot(&mut self) -> Spot {
        Spot::drawn(&mut Random::from_seed(self.byte().into()))
    }
}

#[cfg(test)]
mod tests {
    use super::*;

    #[test]
    fn an_input_is_read_from_the_front() {
        let mut input = Input::new(&[7, 2, 8, 9, 0xFF, 1, 0, 0, 0, 0, 0, 0, 1, 0xF0, 0xFE, 2, 1]);
        assert_eq!(input.byte(), 7);
        assert_eq!(input.bytes(), [8, 9]);
        assert_eq!(input.number(), (1 << 56) + 1);
        assert_eq!(input.number(), u64::MAX);
        assert_eq!(input.number(), 258);
        assert!(input.is_empty());
        assert_eq!((input.byte(), input.bytes()), (0, &[][..]));
    }

    #[test]
    fn a_room_is_just_as_wanted_or_near_it_or_far_more() {
        let rooms = [0, 3, 4, 13, 14, 253, 255];
        let rooms = rooms.map(|byte| Input::new(&[byte]).room(224, 112));
        assert_eq!(rooms, [224, 225, 223, 336, 112, 4368, 217]);
    }
}
