//! The threads that work: `--jobs` limits them all together, over texts and within a text.

use std::num::NonZero;
use std::sync::atomic::{AtomicUsize, Ordering};
use std::thread;

/// The most threads that work.
const MOST: usize = 256;

/// The threads that may work, and how many of them do not yet.
#[derive(Debug)]
pub struct Threads {
    number: usize,
    free: AtomicUsize,
}

/// Threads that work. They are free again when it is dropped.
#[derive(Debug)]
pub struct Taken<'a> {
    threads: &'a Threads,
    number: usize,
}

impl Threads {
    /// As many as are asked for, and at most 256; else as many as there are processors.
    pub fn new(jobs: Option<NonZero<usize>>) -> Self {
        let processors = || thread::available_parallelism().unwrap_or(NonZero::<usize>::MIN);
        let number = jobs.unwrap_or_else(processors).get().min(MOST);
        Self {
            number,
            free: AtomicUsize::new(number),
        }
    }

    /// How many may work.
    pub const fn number(&self) -> usize {
        self.number
    }

    /// Takes as many of the free ones as there are, and not more than `most`.
    pub fn take(&self, most: usize) -> Taken<'_> {
        let less = |free: usize| Some(free - free.min(most));
        let before = self
            .free
            .fetch_update(Ordering::SeqCst, Ordering::SeqCst, less);
        Taken {
            threads: self,
            number: before.unwrap_or(0).min(most),
        }
    }
}

impl Taken<'_> {
    /// How many they are.
    pub const fn number(&self) -> usize {
        self.number
    }
}

impl Drop for Taken<'_> {
    fn drop(&mut self) {
        self.threads.free.fetch_add(self.number, Ordering::SeqCst);
    }
}

#[cfg(test)]
mod tests {
    use super::*;

    #[test]
    fn no_more_are_taken_than_there_are() {
        let threads = Threads::new(NonZero::new(5));
        assert_eq!(threads.number(), 5);
        let (one, three) = (threads.take(1), threads.take(3));
        assert_eq!((one.number(), three.number()), (1, 3));
        let (last, none) = (threads.take(7), threads.take(1));
        assert_eq!((last.number(), none.number()), (1, 0));
        drop(three);
        assert_eq!(threads.take(usize::MAX).number(), 3);
        drop((one, last, none));
        assert_eq!(threads.take(usize::MAX).number(), 5);
        assert_eq!(Threads::new(NonZero::new(1000)).number(), 256);
        assert!(Threads::new(None).number() >= 1);
    }
}
