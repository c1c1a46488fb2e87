//! Taking damaged text in, beside the standard library's lossy conversion.

use std::hint::black_box;

use compare::library::Library;
use tilghorz_comparison::calls::{Answer, Calls};

/// A text, and the buffer that is lent: three times as long, where every result fits, or as long as the result.
pub struct Repairing {
    text: Vec<u8>,
    out: Vec<u8>,
    wanted: usize,
    /// The number of bad places.
    pub bad: u64,
}

/// In a damaged text one byte of this number is bad.
pub const BAD_ONE_IN: usize = 100;

/// One bad byte in how many the text has with which a call is repeated, if it is such a call.
pub fn bad_bytes(call: &str) -> Option<Option<usize>> {
    match call {
        "repair" => Some(None),
        "repair-damaged" => Some(Some(BAD_ONE_IN)),
        _ => None,
    }
}

impl Repairing {
    /// A text with one bad byte in every `one_in` bytes, or with none.
    pub fn new(text: &str, one_in: Option<usize>) -> Result<Self, String> {
        let mut text = text.as_bytes().to_vec();
        if let Some(one_in) = one_in {
            text.iter_mut()
                .step_by(one_in)
                .for_each(|byte| *byte = 0xFF);
        }
        let lossy = String::from_utf8_lossy(&text).into_owned();
        let mut out = vec![0xAA; 3 * text.len()];
        let value = Answer::of_word(Library.repair(&text, &mut out)).value;
        let wanted = lossy.len();
        if value & 0xFFF_FFFF != wanted as u64 || !out.starts_with(lossy.as_bytes()) {
            return Err("the library does not repair as the standard library does".to_owned());
        }
        let bad = value >> 28;
        Ok(Self {
            text,
            out,
            wanted,
            bad,
        })
    }

    /// The bytes of the text.
    pub const fn bytes(&self) -> usize {
        self.text.len()
    }

    /// By the library, into a buffer with room for every result.
    pub fn with_room(&mut self) {
        black_box(Library.repair(black_box(&self.text), &mut self.out));
    }

    /// By the library, into a buffer that the result fills.
    pub fn exactly(&mut self) {
        let out = &mut self.out[..self.wanted];
        black_box(Library.repair(black_box(&self.text), out));
    }

    /// By the standard library, as an owned string.
    pub fn by_std(&self) {
        black_box(String::from_utf8_lossy(black_box(&self.text)).into_owned());
    }
}
