//! What happens when a signal ends the command while files are changed: the files beside them go away, and it is said
//! how far it came.
//!
//! A thread waits for the signals. It takes `CHANGES` for itself and keeps it, so that then no file is being made or
//! renamed, and none will be.

use std::collections::BTreeSet;
use std::fs;
use std::io::{self, IsTerminal, Write};
use std::path::{Path, PathBuf};
use std::sync::atomic::{AtomicUsize, Ordering};
use std::sync::{Mutex, PoisonError, RwLock, RwLockReadGuard};
use std::thread;

use crate::system::Held;

/// Held by each thread that makes or renames a file, and by the one that ends the command.
static CHANGES: RwLock<()> = RwLock::new(());
/// The files that stand beside others at this time.
static BESIDE: Mutex<BTreeSet<PathBuf>> = Mutex::new(BTreeSet::new());
/// How many texts have been gone through.
static DONE: AtomicUsize = AtomicUsize::new(0);
/// How many files have been changed.
static CHANGED: AtomicUsize = AtomicUsize::new(0);

/// From now on, signals end the command in this way. It is called once, before there are other threads.
pub fn watch(total: usize) {
    end_by(move |name| {
        for path in &*BESIDE.lock().unwrap_or_else(PoisonError::into_inner) {
            // What cannot be taken away stays; a later run takes it.
            let _ = fs::remove_file(path);
        }
        let (done, changed) = (DONE.load(Ordering::SeqCst), CHANGED.load(Ordering::SeqCst));
        format!(
            "ended by {name} after {done} of {total} files: {changed} changed, the others are as they were"
        )
    });
}

/// From now on, signals end the command, and a folder goes away with all that is in it. It is called once, before there are
/// other threads.
pub fn watch_folder(folder: &Path) {
    let folder = folder.to_owned();
    end_by(move |name| {
        // What cannot be taken away stays.
        let _ = fs::remove_dir_all(folder);
        format!("ended by {name}, and nothing was written")
    });
}

/// From now on, signals end the command after a function, which gets the signal's name and gives a message. It is called when
/// no file is being made or renamed.
fn end_by(last: impl FnOnce(&str) -> String + Send + 'static) {
    let held = Held::new();
    let wait = move || {
        let Some(signal) = held.wait() else {
            return;
        };
        let _kept = CHANGES.write().unwrap_or_else(PoisonError::into_inner);
        let message = last(signal.name);
        let line = if io::stderr().is_terminal() {
            "\r\x1B[K"
        } else {
            ""
        };
        let message = format!("{line}tilghorz-host: {message}\n");
        let _ = io::stderr().write_all(message.as_bytes());
        held.end_by(signal)
    };
    if thread::Builder::new().spawn(wait).is_err() {
        // Where no thread can be started signals do what they do of themselves.
        held.release();
    }
}

/// Counts a text that has been gone through.
pub fn count_done() {
    DONE.fetch_add(1, Ordering::SeqCst);
}

/// Waits for its turn to change a folder. If a signal has come there is none.
pub fn turn() -> RwLockReadGuard<'static, ()> {
    CHANGES.read().unwrap_or_else(PoisonError::into_inner)
}

/// Remembers a file that was made beside another, in a turn.
pub fn remember(path: &Path) {
    let mut beside = BESIDE.lock().unwrap_or_else(PoisonError::into_inner);
    beside.insert(path.to_owned());
}

/// Forgets a file that has gone.
pub fn forget(path: &Path) {
    let mut beside = BESIDE.lock().unwrap_or_else(PoisonError::into_inner);
    beside.remove(path);
}

/// Counts a file that was changed, in the same turn.
pub fn count_changed() {
    CHANGED.fetch_add(1, Ordering::SeqCst);
}
