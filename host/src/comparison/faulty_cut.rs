//! Cuts with a planted fault.

use super::faults::Fault;
use super::faulty::exchanged;
use crate::calls::{Answer, Calls};

/// The call for a cut.
pub fn cut(calls: &dyn Calls, fault: Fault, bytes: &[u8], offset: u64) -> u64 {
    let end = bytes.len() as u64;
    let word = calls.cut(bytes, offset);
    match fault {
        Fault::CutBeforeKeycap => {
            let other = exchanged(bytes, |character| character == '\u{20E3}', "\u{4E2D}");
            calls.cut(&other, offset)
        }
        Fault::CutBeforeTag => {
            let is_tag = |character| ('\u{E0020}'..='\u{E007F}').contains(&character);
            calls.cut(&exchanged(bytes, is_tag, "\u{20000}"), offset)
        }
        Fault::CutInsideCharacter if offset < end && bytes[offset as usize] & 0xC0 == 0x80 => {
            Answer::new(Answer::DONE, offset).word()
        }
        Fault::CutBelowOffset if 0 < offset && offset < end => calls.cut(bytes, offset - 1),
        Fault::CutNotAtEnd if 0 < end && word == end => calls.cut(bytes, end - 1),
        Fault::CutTestsForm if std::str::from_utf8(bytes).is_err() => Answer::new(3, 0).word(),
        _ => word,
    }
}
