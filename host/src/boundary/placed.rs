//! The bytes of an input at a place in memory.

use crate::Random;

/// What can stand around an input: nothing; what would go on with its last character; what would belong to its last
/// item, as E007F, which can make its tags complete; a policy's unused bits; decisions; what would go on with a sheet.
const AROUND: [&[u8]; 11] = [
    b"",
    b"\x80\xBF\x80",
    b"\xEF\xB8\x8F",
    b"\xEF\xB8\x8E\xE2\x83\xA3",
    b"\xE2\x80\x8D\xE2\x9D\xA4",
    b"\xF3\xA0\x81\xBF",
    b"1",
    b"\xFF\xFF\xFF\xFF\xFF\xFF\xFF\xFF",
    b"\x00\x01\x00\x02",
    b"\n\n\n\n",
    b",30\n",
];

/// Where an input stands in its allocation: how many bytes are before it, and which bytes are after it. If there are
/// none before and none after, it fills its allocation.
#[derive(Debug, Clone, Copy, PartialEq, Eq, Default)]
pub struct Spot {
    /// The bytes before it. An allocation starts at a multiple of 8, so they are its alignment.
    pub before: usize,
    /// The number of what stands after it, in the list of this module.
    after: usize,
}

impl Spot {
    /// The whole of an allocation.
    pub const EXACT: Self = Self::at_the_end(0);

    /// At the end of an allocation, after `before` other bytes.
    #[must_use]
    pub const fn at_the_end(before: usize) -> Self {
        Self { before, after: 0 }
    }

    /// A drawn spot. In half of the cases it is at the end of the allocation.
    pub const fn drawn(random: &mut Random) -> Self {
        let before = random.below(17);
        if random.coin() {
            return Self::at_the_end(before);
        }
        let after = 1 + random.below(AROUND.len() - 1);
        Self { before, after }
    }

    /// The number of bytes after it.
    #[must_use]
    pub const fn after(self) -> usize {
        AROUND[self.after].len()
    }
}

/// An input at its spot.
pub struct Placed {
    memory: Vec<u8>,
    start: usize,
    end: usize,
}

impl Placed {
    /// Puts some bytes at a spot.
    #[must_use]
    pub fn new(bytes: &[u8], spot: Spot) -> Self {
        let after = AROUND[spot.after];
        let end = spot.before + bytes.len();
        // Not a byte more than is asked for is allocated here.
        let mut memory = Vec::with_capacity(end + after.len());
        memory.extend(AROUND[2].iter().cycle().take(spot.before));
        memory.extend(bytes);
        memory.extend(after);
        Self {
            memory,
            start: spot.before,
            end,
        }
    }

    /// The input.
    #[must_use]
    pub fn bytes(&self) -> &[u8] {
        &self.memory[self.start..self.end]
    }

    /// Whether all is as it was made.
    #[must_use]
    pub fn is_as_made(&self, bytes: &[u8], spot: Spot) -> bool {
        self.memory == Self::new(bytes, spot).memory
    }
}
