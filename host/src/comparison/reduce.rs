//! Makes what has a difference smaller, as long as it still has one.

use std::time::{Duration, Instant};

use crate::reference::utf8;

/// How long smaller ones are looked for.
const TIME: Duration = Duration::from_secs(5);

/// A list with parts left out, in which the fault is still found.
pub fn reduced<T: Clone>(list: &[T], is_faulty: impl Fn(&[T]) -> bool) -> Vec<T> {
    let mut rest = list.to_vec();
    let mut size = rest.len().div_ceil(2);
    let end_of_time = Instant::now() + TIME;
    let is_time = || Instant::now() < end_of_time;
    while size > 0 {
        let mut start = 0;
        let mut is_shorter = false;
        while start < rest.len() && is_time() {
            let end = rest.len().min(start + size);
            let without = [&rest[..start], &rest[end..]].concat();
            if is_faulty(&without) {
                rest = without;
                is_shorter = true;
            } else {
                start = end;
            }
        }
        // A pass that left something out is repeated at the size of one, and otherwise the parts are halved.
        if !(size == 1 && is_shorter && is_time()) {
            size /= 2;
        }
    }
    rest
}

/// The characters of a text, each as its bytes. A byte where no well-formed character begins stands for itself.
#[must_use]
pub fn characters(text: &[u8]) -> Vec<&[u8]> {
    let mut all = Vec::new();
    let mut rest = text;
    while !rest.is_empty() {
        let length = utf8::first(rest).map_or(1, |(_, length)| length);
        let (character, after) = rest.split_at(length);
        all.push(character);
        rest = after;
    }
    all
}

/// A text with characters left out, in which the fault is still found.
pub fn reduced_text(text: &[u8], is_faulty: impl Fn(&[u8]) -> bool) -> Vec<u8> {
    reduced(&characters(text), |rest| is_faulty(&rest.concat())).concat()
}
