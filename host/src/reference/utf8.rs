//! "A text is well-formed UTF-8 as in RFC 3629: shortest forms, no surrogates, at most 10FFFF."

/// The character that the bytes begin with, and its length in bytes; none where no well-formed character begins.
#[must_use]
pub fn first(bytes: &[u8]) -> Option<(u32, usize)> {
    let &lead = bytes.first()?;
    // The length that the lead byte states, its own bits of the number, and the least number that needs this length.
    let (length, bits, least) = match lead {
        0x00..=0x7F => (1, lead, 0),
        0xC0..=0xDF => (2, lead & 0x1F, 0x80),
        0xE0..=0xEF => (3, lead & 0x0F, 0x800),
        0xF0..=0xF7 => (4, lead & 0x07, 0x1_0000),
        _ => return None,
    };
    let mut number = u32::from(bits);
    for &tail in bytes.get(1..length)? {
        if tail & 0xC0 != 0x80 {
            return None;
        }
        number = (number << 6) | u32::from(tail & 0x3F);
    }
    let is_shortest = number >= least;
    let is_surrogate = (0xD800..=0xDFFF).contains(&number);
    (is_shortest && !is_surrogate && number <= 0x10_FFFF).then_some((number, length))
}

/// The length of the longest well-formed beginning.
#[must_use]
pub fn well_formed_beginning(bytes: &[u8]) -> usize {
    let mut at = 0;
    while let Some((_, length)) = first(&bytes[at..]) {
        at += length;
    }
    at
}
