//! `tilghorz-host format --follow`: a text is formatted as it comes.
//!
//! One thread reads, another waits for signals, and both tell the one that writes. So a signal ends the text, or has the
//! policy read again, also while nothing comes.

use std::fs::File;
use std::io::{self, ErrorKind, Read, Write};
use std::sync::mpsc::{Receiver, SyncSender, sync_channel};
use std::thread;
use std::time::Duration;

use tilghorz::{FeedWriter, Refusal};

use crate::console::{Console, Status};
use crate::policy::PolicyFile;
use crate::source::Source;
use crate::system::Held;

/// The most bytes that are read at once.
const PIECE: usize = 1 << 16;
/// How many pieces may wait to be written.
const WAITING: usize = 4;
/// How long to wait for a file to grow.
const PAUSE: Duration = Duration::from_millis(100);

/// The command.
#[derive(Debug, PartialEq, Eq)]
pub struct Follow {
    /// The policy.
    pub policy: PolicyFile,
    /// The text.
    pub source: Source,
}

/// What the thread that writes is told.
enum Event {
    /// These bytes have come.
    Piece(Vec<u8>),
    /// The file of the policy is to be read again.
    Policy,
    /// Nothing more comes.
    End,
    /// It cannot be read further.
    Unread(io::Error),
}

/// Where the bytes come from.
enum Input {
    /// What ends: standard input, a pipe.
    Ends(Box<dyn Read + Send>),
    /// A file that grows, and how much of it has been read.
    Grows(File, u64),
}

impl Follow {
    /// Formats the text as it comes. An error is one of standard output.
    pub fn run(&self, console: &mut Console) -> io::Result<Status> {
        let Self { policy, source } = self;
        let Some(policy) = policy.read_or_complain(console) else {
            return Ok(Status::Fault);
        };
        let input = match Input::of(source) {
            Ok(input) => input,
            Err(error) => {
                console.complain(&format_args!("{source}: {error}"));
                return Ok(Status::Fault);
            }
        };
        // Without a file there is no policy to read again, and SIGUSR1 does what it does of itself.
        let held = match self.policy.0 {
            Some(_) => Held::with_asking(),
            None => Held::new(),
        };
        let events = start(input, held)?;
        let mut writer = FeedWriter::new(&policy, &mut console.out);
        let fault = self.write(&events, &mut writer)?;
        writer.flush()?;
        Ok(match fault {
            None => Status::Good,
            Some(message) => {
                console.complain(&message);
                Status::Fault
            }
        })
    }

    /// Formats and writes what comes, each piece at once. What is wrong with the text is told as a message; an error is one
    /// of standard output.
    fn write(
        &self,
        events: &Receiver<Event>,
        writer: &mut FeedWriter<impl Write>,
    ) -> io::Result<Option<String>> {
        let source = &self.source;
        let mut line = 1;
        for event in events {
            let written = match event {
                Event::Piece(bytes) => {
                    let before = writer.feed().fed();
                    let written = writer.write_all(&bytes).and_then(|()| writer.flush());
                    let fed = bytes.iter().take(writer.feed().fed() - before);
                    line += fed.filter(|byte| **byte == b'\n').count();
                    written
                }
                Event::Policy => {
                    self.change_policy(writer);
                    continue;
                }
                Event::End => {
                    return refusal(writer.finish()).map(|refusal| told(source, refusal, line));
                }
                Event::Unread(error) => return Ok(Some(format!("{source}: {error}"))),
            };
            if let Some(message) = told(source, refusal(written)?, line) {
                return Ok(Some(message));
            }
        }
        Ok(None)
    }

    /// Reads the file of the policy again. If it is none now, the policy stays.
    fn change_policy(&self, writer: &mut FeedWriter<impl Write>) {
        let policy = self.policy.read();
        let changed = policy.and_then(|policy| {
            let changed = writer.set_policy(&policy);
            changed.map_err(|refusal| refusal.to_string())
        });
        if let Err(message) = changed {
            Console::warn(&format_args!("{message}; the policy stays as it was"));
        }
    }
}

/// Starts the threads that tell what happens.
fn start(input: Input, held: Held) -> io::Result<Receiver<Event>> {
    let (sender, events) = sync_channel(WAITING);
    let signals = sender.clone();
    let wait = move || {
        while let Some(signal) = held.wait() {
            let event = match signal.is_asking() {
                true => Event::Policy,
                false => {
                    // A second signal ends the command at once, also where nobody takes what it writes.
                    held.release();
                    Event::End
                }
            };
            if signals.send(event).is_err() || !signal.is_asking() {
                break;
            }
        }
        loop {
            thread::park();
        }
    };
    if thread::Builder::new().spawn(wait).is_err() {
        // Where no thread can be started signals do what they do of themselves.
        held.release();
    }
    thread::Builder::new().spawn(move || read(input, &sender))?;
    Ok(events)
}

/// Reads pieces and tells them, until nothing more comes or nobody is told.
fn read(mut input: Input, sender: &SyncSender<Event>) {
    loop {
        let mut bytes = vec![0; PIECE];
        let event = match input.read(&mut bytes) {
            Ok(0) => Event::End,
            Ok(length) => {
                bytes.truncate(length);
                Event::Piece(bytes)
            }
            Err(error) if error.kind() == ErrorKind::Interrupted => continue,
            Err(error) => Event::Unread(error),
        };
        let is_last = !matches!(event, Event::Piece(_));
        if sender.send(event).is_err() || is_last {
            return;
        }
    }
}

/// The message of a refusal.
fn told(source: &Source, refusal: Option<Refusal>, line: usize) -> Option<String> {
    refusal.map(|refusal| source.refused_in_line(refusal, line))
}

/// The refusal of a result, if it is one. Another error is one of standard output.
fn refusal(result: io::Result<()>) -> io::Result<Option<Refusal>> {
    let Err(error) = result else {
        return Ok(None);
    };
    let inner = error.get_ref().and_then(|inner| inner.downcast_ref());
    match inner.copied() {
        Some(refusal) => Ok(Some(refusal)),
        None => Err(error),
    }
}

impl Input {
    /// The input of a source.
    fn of(source: &Source) -> io::Result<Self> {
        let Source::File(path) = source else {
            return Ok(Self::Ends(Box::new(io::stdin())));
        };
        let file = File::open(path)?;
        let kind = file.metadata()?.file_type();
        if kind.is_dir() {
            return Err(io::Error::other("--follow takes one file, and no folder"));
        }
        Ok(match kind.is_file() {
            true => Self::Grows(file, 0),
            false => Self::Ends(Box::new(file)),
        })
    }

    /// Reads the next bytes; none is the end. At the end of a file that grows it waits.
    fn read(&mut self, bytes: &mut [u8]) -> io::Result<usize> {
        let (file, before) = match self {
            Self::Ends(input) => return input.read(bytes),
            Self::Grows(file, before) => (file, before),
        };
        loop {
            let length = file.read(bytes)?;
            *before += length as u64;
            if length > 0 {
                return Ok(length);
            }
            if file.metadata()?.len() < *before {
                return Err(io::Error::other("it is now shorter than what was read"));
            }
            thread::sleep(PAUSE);
        }
    }
}
