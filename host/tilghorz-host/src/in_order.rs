//! Work by several threads, with the results in the order of the work.

use std::collections::BTreeMap;
use std::panic;
use std::sync::atomic::{AtomicBool, Ordering};
use std::sync::{Condvar, Mutex, MutexGuard, PoisonError};
use std::thread::{self, ScopedJoinHandle};

/// How many pieces may wait for their turn, for each thread.
const AHEAD: usize = 2;

/// Makes pieces of work one after the other, does them by several threads, of which the caller is one, and takes the results in
/// the order in which the pieces were made. `make` gives nothing at the end, and also after that. `take` says whether more
/// is wanted; after a no, nothing more is made or taken. At a time two pieces for each thread are held, and one more, at most.
pub fn in_order<T, U: Send>(
    threads: usize,
    make: impl FnMut() -> Option<T> + Send,
    work: impl Fn(T) -> U + Sync,
    take: impl FnMut(U) -> bool + Send,
) {
    let line = Line {
        making: Mutex::new(Making { made: 0, make }),
        taking: Mutex::new(Taking {
            due: 0,
            early: BTreeMap::new(),
            take,
        }),
        turned: Condvar::new(),
        is_over: AtomicBool::new(false),
        most_ahead: AHEAD * threads,
    };
    let run = || line.run(&work);
    thread::scope(|scope| {
        // Where a thread cannot be started the others do its work.
        let others: Vec<_> = (1..threads)
            .map_while(|_| thread::Builder::new().spawn_scoped(scope, run).ok())
            .collect();
        run();
        // The scope waits for the work of the threads. This waits for their end, too.
        for ended in others.into_iter().map(ScopedJoinHandle::join) {
            ended.unwrap_or_else(|panic| panic::resume_unwind(panic));
        }
    });
}

/// What the threads share.
struct Line<M, U, K> {
    making: Mutex<Making<M>>,
    taking: Mutex<Taking<U, K>>,
    /// Told when a result was taken.
    turned: Condvar,
    /// Whether nothing more is to be done.
    is_over: AtomicBool,
    /// How many pieces may be made before the one that is due is taken.
    most_ahead: usize,
}

struct Making<M> {
    /// How many pieces were made.
    made: usize,
    make: M,
}

struct Taking<U, K> {
    /// The number of the piece whose result is taken next.
    due: usize,
    /// Results that came before their turn.
    early: BTreeMap<usize, U>,
    take: K,
}

impl<M, U, K> Line<M, U, K> {
    /// Does pieces until there is none.
    fn run<T>(&self, work: &impl Fn(T) -> U)
    where
        M: FnMut() -> Option<T>,
        K: FnMut(U) -> bool,
    {
        let _guard = OverOnPanic(self);
        while let Some((number, piece)) = self.next() {
            self.put(number, work(piece));
        }
    }

    /// The next piece, with its number. The thread with the piece that is due is not here, so it comes to its end, and
    /// nobody waits for ever.
    fn next<T>(&self) -> Option<(usize, T)>
    where
        M: FnMut() -> Option<T>,
    {
        let mut making = locked(&self.making);
        let number = making.made;
        let is_ahead = |taking: &mut Taking<U, K>| {
            number > taking.due + self.most_ahead && !self.is_over.load(Ordering::SeqCst)
        };
        drop(self.turned.wait_while(locked(&self.taking), is_ahead));
        if self.is_over.load(Ordering::SeqCst) {
            return None;
        }
        let piece = (making.make)()?;
        making.made += 1;
        Some((number, piece))
    }

    /// Puts a result in its place, and takes those of which it is the turn.
    fn put(&self, number: usize, result: U)
    where
        K: FnMut(U) -> bool,
    {
        let mut taking = locked(&self.taking);
        taking.early.insert(number, result);
        let Taking { due, early, take } = &mut *taking;
        while !self.is_over.load(Ordering::SeqCst)
            && let Some(result) = early.remove(due)
        {
            *due += 1;
            if !take(result) {
                self.is_over.store(true, Ordering::SeqCst);
            }
        }
        drop(taking);
        self.turned.notify_all();
    }
}

/// The lock of what threads share, also after one of them has ended in a panic.
fn locked<T>(mutex: &Mutex<T>) -> MutexGuard<'_, T> {
    mutex.lock().unwrap_or_else(PoisonError::into_inner)
}

/// Ends the work of all threads where one of them ends in a panic, so that none waits for it.
struct OverOnPanic<'a, M, U, K>(&'a Line<M, U, K>);

impl<M, U, K> Drop for OverOnPanic<'_, M, U, K> {
    fn drop(&mut self) {
        if thread::panicking() {
            self.0.is_over.store(true, Ordering::SeqCst);
            drop(locked(&self.0.taking));
            self.0.turned.notify_all();
        }
    }
}

#[cfg(test)]
mod tests {
    use std::sync::atomic::AtomicUsize;
    use std::time::Duration;

    use super::*;

    /// Numbers from 0 on, of which each third takes a while.
    fn slow(number: usize) -> usize {
        if number.is_multiple_of(3) {
            thread::sleep(Duration::from_millis(1));
        }
        number
    }

    #[test]
    fn results_come_in_order_and_few_are_held() {
        for threads in 1..6 {
            let (made, mut taken) = (AtomicUsize::new(0), Vec::new());
            let make = || {
                let number = made.fetch_add(1, Ordering::SeqCst);
                (number < 100).then_some(number)
            };
            in_order(threads, make, slow, |number| {
                // `number` and those after it are held.
                assert!(made.load(Ordering::SeqCst) <= number + 2 * threads + 2);
                taken.push(number);
                true
            });
            assert_eq!(taken, Vec::from_iter(0..100));
        }
    }

    #[test]
    fn after_a_no_nothing_is_taken() {
        for threads in 1..6 {
            let (mut numbers, mut taken) = (0.., Vec::new());
            in_order(
                threads,
                || numbers.next(),
                slow,
                |number| {
                    taken.push(number);
                    number < 20
                },
            );
            assert_eq!(taken, Vec::from_iter(0..=20));
        }
    }

    #[test]
    fn a_panic_ends_the_work_of_all() {
        for threads in 1..6 {
            let taken = Mutex::new(Vec::new());
            let ended = panic::catch_unwind(|| {
                let mut numbers = 0..;
                let work = |number| {
                    assert!(number != 20, "a worker fails");
                    slow(number)
                };
                in_order(
                    threads,
                    || numbers.next(),
                    work,
                    |number| {
                        locked(&taken).push(number);
                        true
                    },
                );
            });
            assert!(ended.is_err());
            let taken = locked(&taken);
            assert!(taken.len() <= 20);
            assert_eq!(*taken, Vec::from_iter(0..taken.len()));
        }
    }
}
