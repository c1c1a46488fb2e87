//! A text in parts for several workers: document 02, (xiii).

use std::iter::FusedIterator;

use crate::cut;

/// The parts of a text, in text order.
#[derive(Debug, Clone)]
pub struct Parts<'a> {
    rest: &'a [u8],
    length: usize,
}

/// The text in parts of at most `length` bytes, as long as they can be. Each ends where [`cut`] allows it. A part is
/// longer only where no cut is allowed within `length` bytes, and then it is less than `length` bytes longer than it must be.
///
/// If the text is well-formed, the parts formatted and joined are the text formatted. If it is not, the first part that is
/// not well-formed has the first bad place of the text. The text may be longer than [`LONGEST_TEXT`](crate::LONGEST_TEXT).
/// The time is that of two passes over the text at most, and mostly that of a few bytes for each part.
///
/// ```
/// use tilghorz::{Policy, Refusal};
///
/// let policy = Policy::default();
/// let text = "1\u{20E3} \u{2764}\u{FE0F}!".as_bytes();
/// let parts: Vec<&[u8]> = tilghorz::parts(text, 6).collect();
/// assert_eq!(parts, ["1\u{20E3} ".as_bytes(), "\u{2764}\u{FE0F}".as_bytes(), b"!"]);
/// let mut joined = Vec::new();
/// for part in parts {
///     joined.extend_from_slice(&tilghorz::format(part, &policy)?);
/// }
/// assert_eq!(joined, &*tilghorz::format(text, &policy)?);
/// # Ok::<(), Refusal>(())
/// ```
#[must_use]
pub fn parts(text: &[u8], length: usize) -> Parts<'_> {
    Parts {
        rest: text,
        length: length.max(1),
    }
}

impl<'a> Iterator for Parts<'a> {
    type Item = &'a [u8];

    fn next(&mut self) -> Option<&'a [u8]> {
        if self.rest.is_empty() {
            return None;
        }
        // Whether a cut is allowed depends on what is after it alone. So each stretch is searched by itself.
        let mut from = 1;
        let end = loop {
            match cut(&self.rest[from..], self.length - 1) {
                Some(end) => break from + end,
                None => from += self.length,
            }
        };
        let (part, rest) = self.rest.split_at(end);
        self.rest = rest;
        Some(part)
    }
}

impl FusedIterator for Parts<'_> {}
