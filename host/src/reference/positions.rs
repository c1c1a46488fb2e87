//! Positions in characters and in UTF-16 units (document 02, (v)), as `str::chars` and `str::encode_utf16` count them.

/// Counts the characters and the UTF-16 units of a well-formed text up to character boundaries that ascend.
pub struct Positions<'a> {
    text: &'a [u8],
    at: usize,
    chars: u64,
    units: u64,
}

impl<'a> Positions<'a> {
    /// At the start of the text.
    #[must_use]
    pub const fn new(text: &'a [u8]) -> Self {
        Self {
            text,
            at: 0,
            chars: 0,
            units: 0,
        }
    }

    /// The four numbers of a span of bytes: start and end in characters, start and end in UTF-16 units.
    pub fn of(&mut self, start: usize, end: usize) -> [u64; 4] {
        self.go_to(start);
        let (char_start, unit_start) = (self.chars, self.units);
        self.go_to(end);
        [char_start, self.chars, unit_start, self.units]
    }

    /// Counts on to an offset.
    fn go_to(&mut self, offset: usize) {
        let part = str::from_utf8(&self.text[self.at..offset]).expect("whole characters");
        self.chars += part.chars().count() as u64;
        self.units += part.encode_utf16().count() as u64;
        self.at = offset;
    }
}
