//! A thread that is fed in pieces, beside one call on the whole thread.

use std::hint::black_box;

use compare::library::Library;
use tilghorz_comparison::calls::{Answer, Calls};
use tilghorz_comparison::reference::feed::room;
use tilghorz_comparison::reference::policy::{default_policy, empty};

use crate::inputs::Input;

/// The lengths of the pieces that are measured.
pub const PIECES: [usize; 2] = [4096, 64];

/// A thread, and the buffers that are lent. No call clears them.
pub struct Feeding<'a> {
    thread: &'a [u8],
    policy: Vec<u8>,
    /// A feed begun new.
    begun: Vec<u8>,
    feed: Vec<u8>,
    out: Vec<u8>,
}

impl<'a> Feeding<'a> {
    /// Prepares a thread.
    pub fn new(input: &Input, thread: &'a str) -> Result<Self, String> {
        let policy = match input.empty_policy {
            true => empty(),
            false => default_policy().to_vec(),
        };
        // Without room the library says how many bytes a feed has.
        let bytes = Answer::of_word(Library.feed_begin(&policy, &mut [])).value as usize;
        let mut begun = vec![0; bytes];
        let word = Library.feed_begin(&policy, &mut begun);
        if Answer::of_word(word) != Answer::new(Answer::DONE, bytes as u64) {
            return Err("the library begins no feed".to_owned());
        }
        Ok(Self {
            thread: thread.as_bytes(),
            policy,
            feed: begun.clone(),
            begun,
            out: vec![0xAA; room(thread.len())],
        })
    }

    /// Holds what is written piece by piece to what one call writes.
    pub fn compare(&mut self, length: usize) -> Result<(), String> {
        let mut joined: Vec<u8> = Vec::new();
        self.pieces(length, |written| joined.extend(written));
        let whole = Answer::of_word(self.whole());
        let expected = match whole.number {
            Answer::DONE => &self.out[..whole.value as usize],
            _ => self.thread,
        };
        if joined != expected {
            return Err(format!(
                "pieces of {length} bytes are not formatted as the thread"
            ));
        }
        Ok(())
    }

    /// Formats the thread in one call.
    pub fn whole(&mut self) -> u64 {
        black_box(Library.format(black_box(self.thread), &self.policy, &mut self.out))
    }

    /// Feeds the thread in pieces of `length` bytes, each into the same buffer, with just the room that it wants. What each
    /// call writes is handed to a function.
    pub fn pieces(&mut self, length: usize, mut written: impl FnMut(&[u8])) {
        self.feed.copy_from_slice(&self.begun);
        for piece in black_box(self.thread).chunks(length) {
            let out = &mut self.out[..room(piece.len())];
            let word = black_box(Library.feed_piece(&mut self.feed, piece, out));
            written(&out[..word as usize]);
        }
        let word = black_box(Library.feed_end(&mut self.feed, &mut self.out));
        written(&self.out[..word as usize]);
    }
}
