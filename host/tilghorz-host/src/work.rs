//! A command over several texts: several at once, what is said of each in their order, and the progress line.

use std::collections::BTreeMap;
use std::fmt::Display;
use std::io::{self, ErrorKind, Write};
use std::num::NonZero;
use std::path::Path;
use std::slice;
use std::sync::atomic::{AtomicBool, AtomicUsize, Ordering};
use std::sync::{Condvar, Mutex, MutexGuard, PoisonError};
use std::thread;

use crate::console::Console;
use crate::intake::{self, Purpose};
use crate::interrupt;
use crate::replace::{Batch, Folders, InPlace};
use crate::source::{Source, Text};
use crate::tally::{Outcome, Tally};
use crate::threads::{Taken, Threads};
use crate::walk::{Entries, Entry};

/// How a command goes through texts.
#[derive(Debug, Default, Clone, Copy, PartialEq, Eq)]
pub struct Manner {
    /// How many threads work; else as many as there are processors.
    pub jobs: Option<NonZero<usize>>,
    /// Whether there is neither a summary nor a progress line.
    pub is_quiet: bool,
    /// Whether it is told what is passed over.
    pub is_verbose: bool,
    /// How files are changed, if they are.
    pub in_place: Option<InPlace>,
}

/// What is written and said of a text, and the files that change with it.
pub struct Page<'a, 'b> {
    /// What goes to standard output.
    pub out: &'a mut dyn Write,
    /// The threads, of which this one works.
    pub threads: &'a Threads,
    /// The place of the entry in the list.
    pub place: usize,
    messages: &'a mut Vec<String>,
    batch: Option<&'a mut Batch<'b>>,
    is_prepared: &'a mut bool,
    replaced: &'a mut usize,
}

impl Page<'_, '_> {
    /// Says something with the command's name.
    pub fn complain(&mut self, message: String) {
        self.messages.push(message);
    }

    /// Says how many bad places of a text are replaced, if there are some, and counts them.
    pub fn tell_replaced(
        &mut self,
        source: &Source,
        text: &Text,
        replaced: usize,
        purpose: Purpose,
    ) {
        if replaced > 0 {
            self.complain(intake::told(source, text, replaced, purpose));
        }
        *self.replaced = replaced;
    }

    /// Changes the file of a text, with others, to bytes in pieces.
    pub fn replace(&mut self, source: &Source, text: &Text, pieces: &[&[u8]]) -> io::Result<()> {
        let Some(batch) = &mut self.batch else {
            return Err(io::ErrorKind::Unsupported.into());
        };
        batch.prepare_by(source, text, |file| {
            pieces.iter().try_for_each(|piece| file.write_all(piece))
        })?;
        *self.is_prepared = true;
        Ok(())
    }
}

/// What a command does with a text. An error is one of the output.
pub trait Work: Sync {
    /// Does it.
    fn text(&self, source: &Source, text: &Text, page: &mut Page<'_, '_>) -> io::Result<Outcome>;

    /// Writes that a text could not be read, beside the message on standard error.
    fn unread(&self, _: &Source, _: &str, _: &mut Page<'_, '_>) -> io::Result<()> {
        Ok(())
    }
}

impl<F: Fn(&Source, &Text, &mut Page<'_, '_>) -> io::Result<Outcome> + Sync> Work for F {
    fn text(&self, source: &Source, text: &Text, page: &mut Page<'_, '_>) -> io::Result<Outcome> {
        self(source, text, page)
    }
}

/// What came of an entry.
struct Done {
    outcome: Outcome,
    out: Vec<u8>,
    messages: Vec<String>,
    /// How many bad places were replaced.
    replaced: usize,
}

/// Does something with each text. What cannot be read is told, and the others go on. Of several texts a summary is
/// said.
pub fn each(
    entries: &Entries,
    words: [&'static str; 3],
    manner: Manner,
    console: &mut Console,
    one: impl Work,
) -> io::Result<Tally> {
    if manner.is_quiet {
        console.show_no_progress();
    }
    let is_text = |entry: &&Entry| matches!(entry, Entry::Text { .. });
    let texts = entries.list.iter().filter(is_text).count();
    if manner.in_place.is_some() {
        interrupt::watch(texts);
    }
    let folders = Folders::default();
    let go = Go {
        manner,
        threads: Threads::new(manner.jobs),
        folders: &folders,
        one,
    };
    let mut order = Order {
        console,
        tally: Tally::new(words),
        texts,
        shows_progress: entries.are_many,
        due: 0,
        early: BTreeMap::new(),
        error: None,
    };
    if let [entry] = entries.list.as_slice() {
        go.alone(entry, &mut order)?;
    } else {
        order = go.all(&entries.list, order)?;
    }
    let Order {
        console, mut tally, ..
    } = order;
    for fault in folders.sync() {
        console.complain(&fault);
        tally.note_unsynced();
    }
    if entries.are_many && !manner.is_quiet {
        console.say_last(&format_args!("tilghorz-host: {tally}"))?;
    }
    Ok(tally)
}

/// What is the same for all threads.
struct Go<'a, W> {
    manner: Manner,
    threads: Threads,
    folders: &'a Folders,
    one: W,
}

/// What has been written and said, and what is to be when its turn comes.
struct Order<'a> {
    console: &'a mut Console,
    tally: Tally,
    texts: usize,
    shows_progress: bool,
    /// The part of which it is the turn.
    due: usize,
    /// Parts that are done before their turn.
    early: BTreeMap<usize, Vec<Done>>,
    /// The first error of standard output, after which nothing more is done.
    error: Option<io::Error>,
}

/// What the threads share.
struct Shared<'a> {
    order: Mutex<Order<'a>>,
    /// Told when it is another part's turn.
    turned: Condvar,
    /// The part that is taken next.
    next: AtomicUsize,
    /// Whether nothing more is to be done.
    is_over: AtomicBool,
}

impl<W: Work> Go<'_, W> {
    /// Goes through one entry, and writes as it goes.
    fn alone(&self, entry: &Entry, order: &mut Order<'_>) -> io::Result<()> {
        let _own = self.threads.take(1);
        let mut batch = self.batch();
        let (mut messages, mut is_prepared, mut replaced) = (Vec::new(), false, 0);
        let outcome = self.entry(
            entry,
            Page {
                out: &mut order.console.out,
                threads: &self.threads,
                place: 0,
                messages: &mut messages,
                batch: batch.as_mut(),
                is_prepared: &mut is_prepared,
                replaced: &mut replaced,
            },
        )?;
        let mut all = vec![Done {
            outcome,
            out: Vec::new(),
            messages,
            replaced,
        }];
        if let Some(mut batch) = batch {
            let mut waiting = Vec::from_iter(is_prepared.then_some(0));
            commit(&mut batch, &mut waiting, slice::from_ref(entry), &mut all);
        }
        order.write(all)
    }

    /// Goes through all entries in parts, with several threads.
    fn all<'a>(&self, entries: &[Entry], order: Order<'a>) -> io::Result<Order<'a>> {
        let jobs = self.threads.number();
        let length = match self.manner.in_place {
            None => 1,
            Some(_) => entries.len().div_ceil(jobs).clamp(1, Batch::MOST_FILES),
        };
        let parts: Vec<&[Entry]> = entries.chunks(length).collect();
        let shared = Shared {
            order: Mutex::new(order),
            turned: Condvar::new(),
            next: AtomicUsize::new(0),
            is_over: AtomicBool::new(false),
        };
        // All are taken before the first works, which may take those that are left for a text.
        let mut taken: Vec<Taken<'_>> = (0..jobs.min(parts.len()))
            .map(|_| self.threads.take(1))
            .collect();
        let own = taken.pop();
        thread::scope(|scope| {
            let (parts, shared) = (&parts, &shared);
            for each in taken {
                // Where a thread cannot be started the others do its work.
                let work = move || self.take_parts(parts, Some(each), shared);
                if thread::Builder::new().spawn_scoped(scope, work).is_err() {
                    break;
                }
            }
            self.take_parts(parts, own, shared);
        });
        let order = shared.order.into_inner();
        let mut order = order.unwrap_or_else(PoisonError::into_inner);
        match order.error.take() {
            None => Ok(order),
            Some(error) => Err(error),
        }
    }

    /// Takes parts until there is none. Then the thread is free for others.
    fn take_parts(&self, parts: &[&[Entry]], _own: Option<Taken<'_>>, shared: &Shared<'_>) {
        // How many parts may wait for their turn, for each thread.
        const AHEAD: usize = 4;
        let _guard = OverOnPanic(shared);
        loop {
            let number = shared.next.fetch_add(1, Ordering::SeqCst);
            let Some(part) = parts.get(number) else {
                return;
            };
            let is_ahead = |order: &mut Order<'_>| {
                number > order.due + AHEAD * self.threads.number()
                    && !shared.is_over.load(Ordering::SeqCst)
            };
            drop(shared.turned.wait_while(shared.lock(), is_ahead));
            if shared.is_over.load(Ordering::SeqCst) {
                return;
            }
            let done = self.part(part, number, parts[0].len() * number, shared);
            shared.lock().take(number, done, &shared.is_over);
            shared.turned.notify_all();
        }
    }

    /// Goes through a part, whose first entry has this place in the list.
    fn part(
        &self,
        entries: &[Entry],
        number: usize,
        first: usize,
        shared: &Shared<'_>,
    ) -> Vec<Done> {
        let mut batch = self.batch();
        let mut all: Vec<Done> = Vec::with_capacity(entries.len());
        // The places of those that wait to be committed.
        let mut waiting = Vec::new();
        for entry in entries {
            let (mut held, mut messages) = (Vec::new(), Vec::new());
            let (mut is_prepared, mut replaced) = (false, 0);
            let mut turn = Turn {
                shared,
                number,
                held: &mut held,
                // What the entries before it in the part have written comes first.
                may_write: entries.len() == 1,
            };
            let page = Page {
                out: &mut turn,
                threads: &self.threads,
                place: first + all.len(),
                messages: &mut messages,
                batch: batch.as_mut(),
                is_prepared: &mut is_prepared,
                replaced: &mut replaced,
            };
            // An error of standard output has been noted.
            let outcome = self.entry(entry, page).unwrap_or(Outcome::Failed);
            if is_prepared {
                waiting.push(all.len());
            }
            all.push(Done {
                outcome,
                out: held,
                messages,
                replaced,
            });
            if let Some(batch) = &mut batch
                && (batch.is_full() || all.len() == entries.len())
            {
                commit(batch, &mut waiting, entries, &mut all);
            }
        }
        all
    }

    /// A batch, if files are changed.
    fn batch(&self) -> Option<Batch<'_>> {
        let in_place = self.manner.in_place?;
        Some(Batch::new(in_place, self.folders))
    }

    /// Goes through an entry.
    fn entry(&self, entry: &Entry, mut page: Page<'_, '_>) -> io::Result<Outcome> {
        let mut told = |path: &Path, what: &dyn Display| {
            if self.manner.is_verbose {
                let path = Source::File(path.to_owned());
                page.messages.push(format!("{path}: {what}"));
            }
        };
        let (source, may_be_binary) = match entry {
            Entry::Text {
                source,
                may_be_binary,
            } => (source, *may_be_binary),
            Entry::PassedOver(path, why) => {
                told(path, &format_args!("passed over: {why}"));
                return Ok(why.into());
            }
            Entry::Unread(source, message) => {
                page.complain(format!("{source}: {message}"));
                self.one.unread(source, message, &mut page)?;
                return Ok(Outcome::Unread);
            }
            Entry::LeftOver(path) => {
                told(path, &"removed: an earlier run of this command left it");
                return Ok(Outcome::LeftOver);
            }
        };
        let text = if may_be_binary {
            source.read().map(Some)
        } else {
            source.read_unless_binary()
        };
        let outcome = match text {
            Ok(Some(text)) => self.one.text(source, &text, &mut page)?,
            Ok(None) => {
                if self.manner.is_verbose {
                    page.complain(format!(
                        "{source}: passed over: it is binary, with a byte 00"
                    ));
                }
                Outcome::Binary
            }
            Err(error) => {
                page.complain(format!("{source}: {error}"));
                self.one.unread(source, &error.to_string(), &mut page)?;
                Outcome::Failed
            }
        };
        interrupt::count_done();
        Ok(outcome)
    }
}

/// Changes the files of a batch, which are those of the entries at these places. What cannot be changed is told.
fn commit(batch: &mut Batch<'_>, waiting: &mut Vec<usize>, entries: &[Entry], all: &mut [Done]) {
    for (result, place) in batch.commit().into_iter().zip(waiting.drain(..)) {
        if let (Err(error), Entry::Text { source, .. }) = (result, &entries[place]) {
            all[place].messages.push(format!("{source}: {error}"));
            all[place].outcome = Outcome::Failed;
        }
    }
}

impl<'a> Shared<'a> {
    fn lock(&self) -> MutexGuard<'_, Order<'a>> {
        self.order.lock().unwrap_or_else(PoisonError::into_inner)
    }
}

impl Order<'_> {
    /// Takes a part that is done, and writes those of which it is the turn.
    fn take(&mut self, number: usize, done: Vec<Done>, is_over: &AtomicBool) {
        self.early.insert(number, done);
        while let Some(done) = self.early.remove(&self.due) {
            self.due += 1;
            if let Err(error) = self.write(done) {
                self.error.get_or_insert(error);
                is_over.store(true, Ordering::SeqCst);
            }
        }
    }

    /// Writes and says what there is of some entries.
    fn write(&mut self, all: Vec<Done>) -> io::Result<()> {
        for done in all {
            self.tally.count(done.outcome, done.replaced);
            for message in done.messages {
                self.console.complain(&message);
            }
            self.console.print_page(&done.out)?;
        }
        if self.shows_progress {
            let (done, texts) = (self.tally.files(), self.texts);
            self.console
                .progress(&format_args!("{done} of {texts} files"));
        }
        Ok(())
    }
}

/// Where the output of a part goes: into memory, and, when that is much, to standard output as soon as it is its turn.
struct Turn<'s, 'a> {
    shared: &'s Shared<'a>,
    number: usize,
    held: &'s mut Vec<u8>,
    /// Whether it may be written before the part is done.
    may_write: bool,
}

impl Turn<'_, '_> {
    /// The most bytes that are held, unless they must be.
    const MOST: usize = 1 << 20;
}

impl Write for Turn<'_, '_> {
    fn write(&mut self, bytes: &[u8]) -> io::Result<usize> {
        self.held.extend_from_slice(bytes);
        if self.held.len() > Self::MOST && self.may_write {
            self.flush()?;
        }
        Ok(bytes.len())
    }

    fn flush(&mut self) -> io::Result<()> {
        let Shared {
            is_over, turned, ..
        } = self.shared;
        let waits =
            |order: &mut Order<'_>| order.due < self.number && !is_over.load(Ordering::SeqCst);
        let order = turned.wait_while(self.shared.lock(), waits);
        let mut order = order.unwrap_or_else(PoisonError::into_inner);
        if is_over.load(Ordering::SeqCst) {
            return Err(ErrorKind::BrokenPipe.into());
        }
        if let Err(error) = order.console.print_page(self.held) {
            order.error.get_or_insert(error);
            is_over.store(true, Ordering::SeqCst);
            turned.notify_all();
            return Err(ErrorKind::BrokenPipe.into());
        }
        self.held.clear();
        Ok(())
    }
}

/// Ends the work of all threads where one of them ends in a panic, so that none waits for it.
struct OverOnPanic<'s, 'a>(&'s Shared<'a>);

impl Drop for OverOnPanic<'_, '_> {
    fn drop(&mut self) {
        if thread::panicking() {
            self.0.is_over.store(true, Ordering::SeqCst);
            drop(self.0.lock());
            self.0.turned.notify_all();
        }
    }
}
