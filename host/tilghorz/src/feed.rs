//! Threads that come in pieces: document 02, (iii).

use std::fmt::{self, Debug, Formatter};
use std::io::{self, ErrorKind, Read, Write};

use crate::{Counts, LONGEST_TEXT, Policy, Refusal, answer, sys, table};

/// The most bytes that are handed to the library in one call, so that a long piece needs no long buffer.
const PART: usize = 1 << 14;

/// A feed formats a thread of messages that comes in pieces.
///
/// It takes the next bytes and gives the formatted text of all but an unfinished character and a last base that has a
/// variation entry, with its selectors: what comes next decides about those. At the end, the joined outputs and the
/// totals are those of the whole thread formatted in one call. A feed may be sent to another thread; a clone goes on by
/// itself.
///
/// ```
/// use tilghorz::{Feed, Policy, Refusal};
///
/// let mut feed = Feed::new(&Policy::default());
/// let mut out = Vec::new();
/// feed.write(b"I \xE2\x9D", &mut out)?;
/// assert_eq!(out, b"I ");
/// feed.write(b"\xA4", &mut out)?;
/// assert_eq!(out, b"I ");
/// assert_eq!(feed.totals().decisions, 1);
/// feed.write(b" it", &mut out)?;
/// assert_eq!(out, "I \u{2764}\u{FE0E} it".as_bytes());
///
/// // A refused piece changes nothing. The offset is that in the thread.
/// let refusal = feed.write(b"ab\xFF", &mut out);
/// assert_eq!(refusal, Err(Refusal::NotWellFormed { valid_up_to: 10 }));
/// feed.finish(&mut out)?;
/// assert_eq!(feed.write(b"more", &mut out), Err(Refusal::FeedEnded));
/// # Ok::<(), Refusal>(())
/// ```
#[derive(Clone)]
pub struct Feed {
    /// The feed as the library has it.
    bytes: [u8; sys::FEED_BYTES],
    /// The bytes of the thread so far.
    fed: usize,
}

impl Feed {
    /// Begins a feed under a policy.
    #[must_use]
    pub fn new(policy: &Policy) -> Self {
        let mut bytes = [0; sys::FEED_BYTES];
        let word = sys::feed_begin(policy.as_bytes(), &mut bytes);
        answer::expect(word, bytes.len());
        Self { bytes, fed: 0 }
    }

    /// Changes the policy. It judges the bases whose last byte is fed after this call. A base that was fed before and is
    /// not written yet keeps its policy, in the output and in the totals.
    ///
    /// ```
    /// use tilghorz::{Feed, Policy, Refusal};
    ///
    /// let mut feed = Feed::new(&Policy::default());
    /// let mut out = Vec::new();
    /// feed.write("\u{2764}".as_bytes(), &mut out)?;
    /// // Under a policy with no member each bare base becomes an emoji.
    /// feed.set_policy(&"\n\n\n\n".parse()?)?;
    /// feed.write("\u{2764}".as_bytes(), &mut out)?;
    /// feed.finish(&mut out)?;
    /// assert_eq!(out, "\u{2764}\u{FE0E}\u{2764}\u{FE0F}".as_bytes());
    /// assert_eq!(feed.set_policy(&Policy::default()), Err(Refusal::FeedEnded));
    /// # Ok::<(), Refusal>(())
    /// ```
    ///
    /// # Errors
    /// [`Refusal::FeedEnded`] (9); the feed is then as it was.
    pub fn set_policy(&mut self, policy: &Policy) -> Result<(), Refusal> {
        answer::read_done(sys::feed_policy(&mut self.bytes, policy.as_bytes())).map(|_| ())
    }

    /// The room that the output of a piece must have: 4 times its bytes and 16. The end counts as a piece of 0 bytes.
    #[must_use]
    pub const fn room_for(piece: usize) -> usize {
        piece.saturating_mul(4).saturating_add(16)
    }

    /// Feeds a piece, adds what is decided to the output, and gives how many bytes that is. A long piece is fed in
    /// parts, so that the output is made no longer than a part needs.
    ///
    /// # Errors
    /// [`Refusal::FeedEnded`] (9), [`Refusal::TextTooLong`] (1) and [`Refusal::NotWellFormed`] (3); the feed and the
    /// output are then as they were.
    pub fn write(&mut self, piece: &[u8], out: &mut Vec<u8>) -> Result<usize, Refusal> {
        if piece.len() <= PART {
            return append(Self::room_for(piece.len()), out, |out| {
                self.write_into(piece, out)
            });
        }
        if self.fed + piece.len() > LONGEST_TEXT {
            // The refusal is that of the whole piece.
            return self.write_into(piece, &mut []);
        }
        let (before, start) = (self.clone(), out.len());
        for part in piece.chunks(PART) {
            if let Err(refusal) = self.write(part, out) {
                *self = before;
                out.truncate(start);
                return Err(refusal);
            }
        }
        Ok(out.len() - start)
    }

    /// Feeds a piece, writes what is decided to the front of the caller's buffer, and gives how many bytes that is. The
    /// buffer must have [the room for the piece](Self::room_for), however much of it is used. What is after the
    /// result stays as it was.
    ///
    /// # Errors
    /// [`Refusal::FeedEnded`] (9), [`Refusal::TextTooLong`] (1), [`Refusal::NotWellFormed`] (3) and
    /// [`Refusal::OutputTooShort`] (8); the feed and the buffer are then as they were.
    pub fn write_into(&mut self, piece: &[u8], out: &mut [u8]) -> Result<usize, Refusal> {
        let length = answer::read_done(sys::feed_piece(&mut self.bytes, piece, out))?;
        self.fed += piece.len();
        Ok(length)
    }

    /// Ends the thread, adds what is left to the output, and gives how many bytes that is. The totals can still be read.
    ///
    /// # Errors
    /// [`Refusal::FeedEnded`] (9) and [`Refusal::UnfinishedCharacter`] (10); the feed and the output are then as they
    /// were, and after 10 the thread can go on.
    pub fn finish(&mut self, out: &mut Vec<u8>) -> Result<usize, Refusal> {
        append(Self::room_for(0), out, |out| self.finish_into(out))
    }

    /// Ends the thread, writes what is left to the front of the caller's buffer, and gives how many bytes that is. The
    /// buffer must have 16 bytes.
    ///
    /// # Errors
    /// [`Refusal::FeedEnded`] (9), [`Refusal::UnfinishedCharacter`] (10) and [`Refusal::OutputTooShort`] (8); the feed
    /// and the buffer are then as they were.
    pub fn finish_into(&mut self, out: &mut [u8]) -> Result<usize, Refusal> {
        answer::read_done(sys::feed_end(&mut self.bytes, out))
    }

    /// The totals of the whole characters fed so far, as if the thread ended there.
    #[must_use]
    pub fn totals(&self) -> Counts {
        let mut totals = [0; sys::TOTALS_BYTES];
        let word = sys::feed_totals(&self.bytes, &mut totals);
        answer::expect(word, totals.len());
        Counts::of(table::numbers(&totals))
    }

    /// How many bytes have been fed.
    #[must_use]
    pub const fn fed(&self) -> usize {
        self.fed
    }

    /// Feeds as many of some bytes as it can: at most a part, and of that what is before an ill-formed place and within
    /// the limit. So what is written does not depend on how a thread with such a place is cut.
    fn write_some(&mut self, bytes: &[u8], out: &mut Vec<u8>) -> Result<usize, Refusal> {
        let part = &bytes[..bytes.len().min(PART)];
        let Err(refusal) = self.write(part, out) else {
            return Ok(part.len());
        };
        let end = match refusal {
            Refusal::NotWellFormed { valid_up_to } => valid_up_to,
            Refusal::TextTooLong => LONGEST_TEXT,
            _ => return Err(refusal),
        };
        match end.saturating_sub(self.fed) {
            0 => Err(refusal),
            length => self.write_some(&part[..length], out),
        }
    }
}

impl Debug for Feed {
    fn fmt(&self, out: &mut Formatter<'_>) -> fmt::Result {
        out.debug_struct("Feed")
            .field("fed", &self.fed)
            .finish_non_exhaustive()
    }
}

/// Makes a call with this room after the bytes of the output, and keeps what it writes.
fn append(
    room: usize,
    out: &mut Vec<u8>,
    call: impl FnOnce(&mut [u8]) -> Result<usize, Refusal>,
) -> Result<usize, Refusal> {
    let start = out.len();
    out.resize(start + room, 0);
    let written = call(&mut out[start..]);
    out.truncate(start + written.unwrap_or(0));
    written
}

impl From<Refusal> for io::Error {
    /// An error with the refusal in it. A text that is not well-formed is invalid data, a thread that ends inside a
    /// character ends unexpectedly, and one over the limit is too large.
    fn from(refusal: Refusal) -> Self {
        let kind = match refusal {
            Refusal::NotWellFormed { .. } => ErrorKind::InvalidData,
            Refusal::UnfinishedCharacter => ErrorKind::UnexpectedEof,
            Refusal::TextTooLong => ErrorKind::FileTooLarge,
            _ => ErrorKind::InvalidInput,
        };
        Self::new(kind, refusal)
    }
}

/// Formats what is written to it, and hands it on to another writer.
///
/// An unfinished character and a last base wait for what comes next: `flush` does not write them, [`finish`] does. An
/// error that has a [`Refusal`] in it is one of the thread; all that is before the place of which it tells is formatted.
///
/// ```
/// use std::io::Write;
/// use tilghorz::{FeedWriter, Policy};
///
/// let mut writer = FeedWriter::new(&Policy::default(), Vec::new());
/// write!(writer, "1\u{FE0E} and \u{2764}")?;
/// assert_eq!(writer.get_ref(), b"1 and ");
/// writer.finish()?;
/// assert_eq!(writer.into_inner(), "1 and \u{2764}\u{FE0E}".as_bytes());
/// # Ok::<(), std::io::Error>(())
/// ```
///
/// [`finish`]: Self::finish
#[derive(Debug)]
pub struct FeedWriter<W> {
    feed: Feed,
    inner: W,
    /// What is formatted; the other writer has had the front of it.
    formatted: Vec<u8>,
    written: usize,
    has_ended: bool,
}

impl<W> FeedWriter<W> {
    /// A writer that formats under a policy.
    #[must_use]
    pub fn new(policy: &Policy, inner: W) -> Self {
        Self {
            feed: Feed::new(policy),
            inner,
            formatted: Vec::new(),
            written: 0,
            has_ended: false,
        }
    }

    /// The feed, which has the totals.
    #[must_use]
    pub const fn feed(&self) -> &Feed {
        &self.feed
    }

    /// Changes the policy for what is written after this call, as [`Feed::set_policy`] does.
    ///
    /// # Errors
    /// [`Refusal::FeedEnded`] (9); the feed is then as it was.
    pub fn set_policy(&mut self, policy: &Policy) -> Result<(), Refusal> {
        self.feed.set_policy(policy)
    }

    /// The other writer.
    #[must_use]
    pub const fn get_ref(&self) -> &W {
        &self.inner
    }

    /// The other writer. What [`finish`](Self::finish) has not written is lost.
    #[must_use]
    pub fn into_inner(self) -> W {
        self.inner
    }
}

impl<W: Write> FeedWriter<W> {
    /// Ends the thread: writes what is left, and flushes the other writer. It may be called again after an error of that
    /// writer.
    ///
    /// # Errors
    /// Those of the other writer, and [`Refusal::UnfinishedCharacter`] (10) in an error of the kind `UnexpectedEof`.
    pub fn finish(&mut self) -> io::Result<()> {
        self.hand_on()?;
        if !self.has_ended {
            self.feed.finish(&mut self.formatted)?;
            self.has_ended = true;
        }
        self.flush()
    }

    /// Hands on what is formatted. After an error the rest is still there.
    fn hand_on(&mut self) -> io::Result<()> {
        while self.written < self.formatted.len() {
            match self.inner.write(&self.formatted[self.written..]) {
                Ok(0) => return Err(ErrorKind::WriteZero.into()),
                // A writer may say that it took more than it was given.
                Ok(length) => self.written = self.written.saturating_add(length),
                Err(error) if error.kind() == ErrorKind::Interrupted => {}
                Err(error) => return Err(error),
            }
        }
        self.formatted.clear();
        self.written = 0;
        Ok(())
    }
}

impl<W: Write> Write for FeedWriter<W> {
    fn write(&mut self, bytes: &[u8]) -> io::Result<usize> {
        self.hand_on()?;
        let length = self.feed.write_some(bytes, &mut self.formatted)?;
        // These bytes are taken. So an error of the other writer is left to the next call, which meets it again.
        let _ = self.hand_on();
        Ok(length)
    }

    fn flush(&mut self) -> io::Result<()> {
        self.hand_on()?;
        self.inner.flush()
    }
}

/// Reads from another reader, and gives what is formatted.
///
/// It waits for the other reader only if it has nothing to give. An error that has a [`Refusal`] in it is one of the
/// thread, and comes after all that is formatted before it; it comes again in each further call.
///
/// ```
/// use std::io::Read;
/// use tilghorz::{FeedReader, Policy};
///
/// let message = "1\u{FE0E} and \u{2764}".as_bytes();
/// let mut formatted = String::new();
/// FeedReader::new(&Policy::default(), message).read_to_string(&mut formatted)?;
/// assert_eq!(formatted, "1 and \u{2764}\u{FE0E}");
/// # Ok::<(), std::io::Error>(())
/// ```
#[derive(Debug)]
pub struct FeedReader<R> {
    feed: Feed,
    inner: R,
    /// What was read; the front of it is fed.
    read: Vec<u8>,
    fed: usize,
    /// What is formatted; the front of it is given.
    formatted: Vec<u8>,
    given: usize,
    /// How the thread ended, if it has.
    end: Option<Result<(), Refusal>>,
}

impl<R> FeedReader<R> {
    /// A reader that formats under a policy.
    #[must_use]
    pub fn new(policy: &Policy, inner: R) -> Self {
        Self {
            feed: Feed::new(policy),
            inner,
            read: Vec::new(),
            fed: 0,
            formatted: Vec::new(),
            given: 0,
            end: None,
        }
    }

    /// The feed, which has the totals.
    #[must_use]
    pub const fn feed(&self) -> &Feed {
        &self.feed
    }

    /// The other reader.
    #[must_use]
    pub const fn get_ref(&self) -> &R {
        &self.inner
    }

    /// The other reader. What was read of it and not given is lost.
    #[must_use]
    pub fn into_inner(self) -> R {
        self.inner
    }
}

impl<R: Read> FeedReader<R> {
    /// Feeds what was read, or reads once more. At the end of the other reader the thread ends.
    fn go_on(&mut self) -> io::Result<()> {
        if self.fed < self.read.len() {
            match self
                .feed
                .write_some(&self.read[self.fed..], &mut self.formatted)
            {
                Ok(length) => self.fed += length,
                Err(refusal) => self.end = Some(Err(refusal)),
            }
            return Ok(());
        }
        self.fed = 0;
        self.read.resize(PART, 0);
        let length = self.inner.read(&mut self.read);
        self.read.truncate(*length.as_ref().unwrap_or(&0));
        if length? == 0 {
            self.end = Some(self.feed.finish(&mut self.formatted).map(|_| ()));
        }
        Ok(())
    }
}

impl<R: Read> Read for FeedReader<R> {
    fn read(&mut self, out: &mut [u8]) -> io::Result<usize> {
        loop {
            let ready = &self.formatted[self.given..];
            if !ready.is_empty() || out.is_empty() {
                let length = ready.len().min(out.len());
                out[..length].copy_from_slice(&ready[..length]);
                self.given += length;
                return Ok(length);
            }
            self.formatted.clear();
            self.given = 0;
            match self.end {
                None => self.go_on()?,
                Some(Ok(())) => return Ok(0),
                Some(Err(refusal)) => return Err(refusal.into()),
            }
        }
    }
}
