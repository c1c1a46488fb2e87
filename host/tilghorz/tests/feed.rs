//! A thread that comes in pieces is formatted as the whole thread is.

use std::fmt::Debug;
use std::io::{self, ErrorKind, Read, Write};
use std::thread;

use tilghorz::{Counts, Feed, FeedReader, FeedWriter, LONGEST_TEXT, Policy, Refusal};

/// A thread with findings of many kinds.
const THREAD: &str = "1\u{FE0E} and \u{2764}, 1\u{20E3}\u{FE0F} \u{231A}\u{FE0E}\u{FE0F}\u{FE0F} \u{261D}\u{FE0F}\u{1F3FB} \
    \u{2764}\u{FE0E}\u{E0061}\u{E007F} \u{1F1E6}\u{FE0F}\u{1F1E7} \u{A9}\u{200D}\u{FE0F}\u{AE}";

/// The whole thread in one call.
fn formatted(thread: &[u8]) -> Vec<u8> {
    let formatted = tilghorz::format(thread, &Policy::default()).expect("a thread");
    formatted.into_owned()
}

/// The totals of the whole thread in one call.
fn totals(thread: &[u8]) -> Counts {
    let findings = tilghorz::findings(thread, &Policy::default()).expect("a thread");
    findings.totals()
}

/// A feed that has taken a piece, and what it wrote.
fn fed(piece: &[u8]) -> (Feed, Vec<u8>) {
    let (mut feed, mut out) = (Feed::new(&Policy::default()), Vec::new());
    let written = feed.write(piece, &mut out).expect("taken");
    assert_eq!((written, feed.fed()), (out.len(), piece.len()));
    (feed, out)
}

#[test]
fn pieces_of_every_length_give_the_formatted_thread() {
    let expected = formatted(THREAD.as_bytes());
    for length in 1..=THREAD.len() {
        let (mut feed, mut out) = fed(b"");
        let mut end = 0;
        for piece in THREAD.as_bytes().chunks(length) {
            feed.write(piece, &mut out).expect("taken");
            assert!(expected.starts_with(&out));
            end += piece.len();
            let whole = THREAD.floor_char_boundary(end);
            assert_eq!(feed.totals(), totals(&THREAD.as_bytes()[..whole]));
        }
        feed.finish(&mut out).expect("an end");
        assert_eq!(out, expected, "pieces of {length} bytes");
        assert_eq!(feed.totals(), totals(THREAD.as_bytes()));
    }
}

#[test]
fn a_refused_piece_changes_nothing() {
    let (mut feed, mut out) = fed(b"abc\xE2");
    for (piece, valid_up_to) in [(&b"A"[..], 3), (b"\x9D\xA4 \xFF", 7), (b"\x80\xC0", 3)] {
        let refusal = Refusal::NotWellFormed { valid_up_to };
        assert_eq!(feed.write(piece, &mut out), Err(refusal));
    }
    assert_eq!(feed.finish(&mut out), Err(Refusal::UnfinishedCharacter));
    let mut buffer = [7; 28];
    let short = feed.write_into(b"\x9D\xA4.", &mut buffer[..27]);
    assert_eq!(short, Err(Refusal::OutputTooShort { wanted: 28 }));
    assert_eq!((buffer, &*out, feed.fed()), ([7; 28], &b"abc"[..], 4));
    assert_eq!(feed.write_into(b"\x9D\xA4.", &mut buffer), Ok(7));
    assert_eq!(&buffer[..7], "\u{2764}\u{FE0E}.".as_bytes());
    assert_eq!(buffer[7..], [7; 21]);
    assert_eq!(Feed::room_for(3), 28);
}

#[test]
fn after_the_end_the_totals_can_be_read() {
    let (mut feed, mut out) = fed("1\u{FE0E}".as_bytes());
    let short = feed.finish_into(&mut [0; 15]);
    assert_eq!(short, Err(Refusal::OutputTooShort { wanted: 16 }));
    assert_eq!(feed.finish(&mut out), Ok(1));
    assert_eq!(feed.finish(&mut out), Err(Refusal::FeedEnded));
    assert_eq!(feed.write(b"\xFF", &mut out), Err(Refusal::FeedEnded));
    assert_eq!(feed.write(b"", &mut out), Err(Refusal::FeedEnded));
    let long = vec![b'a'; LONGEST_TEXT + 1];
    assert_eq!(feed.write(&long, &mut out), Err(Refusal::FeedEnded));
    assert_eq!((&*out, feed.totals().policy_redundant), (&b"1"[..], 1));
}

#[test]
fn a_long_piece_is_taken_whole_or_not_at_all() {
    let long = THREAD.repeat(2000);
    let (mut feed, mut out) = fed("\u{2764}".as_bytes());
    let before = feed.totals();
    let spoilt = [long.as_bytes(), b"\xFF"].concat();
    let refusal = Refusal::NotWellFormed {
        valid_up_to: 3 + long.len(),
    };
    assert_eq!(feed.write(&spoilt, &mut out), Err(refusal));
    assert_eq!((feed.fed(), feed.totals(), out.len()), (3, before, 0));
    feed.write(long.as_bytes(), &mut out).expect("taken");
    feed.finish(&mut out).expect("an end");
    assert_eq!(out, formatted(["\u{2764}", &long].concat().as_bytes()));
    // The room is that of the result and of a part, and not four times the piece.
    assert!(out.capacity() < 3 * long.len(), "{}", out.capacity());
}

#[test]
fn the_limit_is_on_the_whole_thread() {
    let (mut feed, mut out) = fed(b"\xE2");
    let rest = [b"\x9D\xA4", &vec![b'a'; LONGEST_TEXT - 3][..]].concat();
    let longer = [&rest[..], b"\xFF"].concat();
    assert_eq!(feed.write(&longer, &mut out), Err(Refusal::TextTooLong));
    feed.write(&rest, &mut out).expect("taken");
    assert_eq!(feed.fed(), LONGEST_TEXT);
    assert_eq!(feed.write(b"a", &mut out), Err(Refusal::TextTooLong));
    assert_eq!(feed.write(b"", &mut out), Ok(0));
    assert_eq!(feed.finish(&mut out), Ok(0));
    assert_eq!(out.len(), LONGEST_TEXT + 3);
}

/// A policy under which each bare base becomes an emoji.
fn emoji_policy() -> Policy {
    "\n\n\n\n".parse().expect("a sheet")
}

#[test]
fn a_base_is_judged_by_the_policy_in_force_when_its_last_byte_was_fed() {
    let heart = "\u{2764}".as_bytes();
    for cut in 0..=3 {
        let (mut feed, mut out) = fed(&heart[..cut]);
        feed.set_policy(&emoji_policy()).expect("open");
        feed.write(&heart[cut..], &mut out).expect("taken");
        assert_eq!(feed.totals().decisions, 1);
        feed.finish(&mut out).expect("an end");
        let selector = if cut == 3 { "\u{FE0E}" } else { "\u{FE0F}" };
        assert_eq!(out, ["\u{2764}", selector].concat().as_bytes(), "{cut}");
    }
}

#[test]
fn a_held_base_keeps_its_policy_through_selectors_and_changes() {
    // FE0F after a heart is redundant where the heart is bare as an emoji, and stays under the other policies.
    let bare: Policy = "2764\n\n\n\n".parse().expect("a sheet");
    let (mut feed, mut out) = (Feed::new(&bare), Vec::new());
    feed.write("\u{2764}".as_bytes(), &mut out).expect("taken");
    feed.set_policy(&emoji_policy()).expect("open");
    feed.write(b"\xEF\xB8", &mut out).expect("taken");
    feed.set_policy(&Policy::default()).expect("open");
    feed.write(b"\x8F", &mut out).expect("taken");
    assert_eq!(feed.totals().policy_redundant, 1);
    feed.write("\u{2764}.".as_bytes(), &mut out).expect("taken");
    assert_eq!(out, "\u{2764}\u{2764}\u{FE0E}.".as_bytes());
    feed.finish(&mut out).expect("an end");
    assert_eq!(feed.set_policy(&bare), Err(Refusal::FeedEnded));
    assert_eq!(feed.totals().decisions, 1);
}

#[test]
fn a_writer_changes_its_policy() {
    let mut writer = FeedWriter::new(&Policy::default(), Vec::new());
    write!(writer, "\u{2764}").expect("written");
    writer.set_policy(&emoji_policy()).expect("open");
    write!(writer, "\u{2764}").expect("written");
    writer.finish().expect("an end");
    let late = writer.set_policy(&emoji_policy());
    assert_eq!(late, Err(Refusal::FeedEnded));
    let expected = "\u{2764}\u{FE0E}\u{2764}\u{FE0F}";
    assert_eq!(writer.into_inner(), expected.as_bytes());
}

#[test]
fn a_feed_goes_to_another_thread_and_a_clone_goes_on_by_itself() {
    let (feed, out) = fed("a\u{2764}".as_bytes());
    let go_on = |mut feed: Feed, mut out: Vec<u8>, rest: &str| {
        feed.write(rest.as_bytes(), &mut out).expect("taken");
        feed.finish(&mut out).expect("an end");
        out
    };
    let (other, other_out) = (feed.clone(), out.clone());
    let there = thread::spawn(move || go_on(other, other_out, "\u{FE0F}"));
    assert_eq!(go_on(feed, out, " b"), "a\u{2764}\u{FE0E} b".as_bytes());
    let there = there.join().expect("an end");
    assert_eq!(there, "a\u{2764}\u{FE0F}".as_bytes());
}

/// The refusal in an error.
fn refusal(error: &io::Error) -> Option<Refusal> {
    error.get_ref()?.downcast_ref().copied()
}

/// The error of what must fail.
fn error<T: Debug>(result: io::Result<T>) -> (ErrorKind, Option<Refusal>) {
    let error = result.expect_err("an error");
    (error.kind(), refusal(&error))
}

/// A writer and a reader that take or give a byte in a call, and are interrupted before each.
#[derive(Default)]
struct Slow {
    bytes: Vec<u8>,
    is_interrupted: bool,
}

impl Slow {
    fn turn(&mut self) -> io::Result<()> {
        self.is_interrupted = !self.is_interrupted;
        if self.is_interrupted {
            return Err(ErrorKind::Interrupted.into());
        }
        Ok(())
    }
}

impl Write for Slow {
    fn write(&mut self, bytes: &[u8]) -> io::Result<usize> {
        self.turn()?;
        self.bytes.extend(bytes.first());
        Ok(bytes.len().min(1))
    }

    fn flush(&mut self) -> io::Result<()> {
        Ok(())
    }
}

impl Read for Slow {
    fn read(&mut self, out: &mut [u8]) -> io::Result<usize> {
        self.turn()?;
        if self.bytes.is_empty() || out.is_empty() {
            return Ok(0);
        }
        out[0] = self.bytes.remove(0);
        Ok(1)
    }
}

#[test]
fn a_writer_hands_on_what_is_decided() {
    let mut writer = FeedWriter::new(&Policy::default(), Slow::default());
    writer.write_all(THREAD.as_bytes()).expect("written");
    writer.flush().expect("flushed");
    let expected = formatted(THREAD.as_bytes());
    assert!(expected.starts_with(&writer.get_ref().bytes));
    assert!(writer.get_ref().bytes.len() < expected.len());
    writer.finish().expect("an end");
    writer.finish().expect("an end again does nothing");
    assert_eq!(writer.feed().totals(), totals(THREAD.as_bytes()));
    let late = error(writer.write(b"a"));
    assert_eq!(late, (ErrorKind::InvalidInput, Some(Refusal::FeedEnded)));
    assert_eq!(writer.into_inner().bytes, expected);
}

#[test]
fn a_writer_formats_all_before_an_ill_formed_place_however_it_is_cut() {
    let thread = b"a\xE2\x9D\xA4b\xE2\x9D\xA4\xE2\x9DA and more";
    let refusal = Refusal::NotWellFormed { valid_up_to: 8 };
    for length in 1..=thread.len() {
        let mut writer = FeedWriter::new(&Policy::default(), Vec::new());
        let mut pieces = thread.chunks(length);
        let written = pieces.try_for_each(|piece| writer.write_all(piece));
        assert_eq!(error(written), (ErrorKind::InvalidData, Some(refusal)));
        assert_eq!(writer.get_ref(), "a\u{2764}\u{FE0E}b".as_bytes());
    }
    let mut writer = FeedWriter::new(&Policy::default(), Vec::new());
    writer.write_all(b"a\xE2").expect("written");
    let end = error(writer.finish());
    let unfinished = Some(Refusal::UnfinishedCharacter);
    assert_eq!(end, (ErrorKind::UnexpectedEof, unfinished));
}

#[test]
fn a_writer_takes_what_is_within_the_limit() {
    let mut writer = FeedWriter::new(&Policy::default(), io::sink());
    let long = vec![b'a'; LONGEST_TEXT + 1];
    let refusal = Some(Refusal::TextTooLong);
    let written = error(writer.write_all(&long));
    assert_eq!(written, (ErrorKind::FileTooLarge, refusal));
    assert_eq!(writer.feed().fed(), LONGEST_TEXT);
}

/// A writer that fails once, and then takes all.
struct Failing(bool, Vec<u8>);

impl Write for Failing {
    fn write(&mut self, bytes: &[u8]) -> io::Result<usize> {
        if self.0 {
            self.0 = false;
            return Err(ErrorKind::StorageFull.into());
        }
        self.1.write(bytes)
    }

    fn flush(&mut self) -> io::Result<()> {
        Ok(())
    }
}

#[test]
fn an_error_of_the_other_writer_loses_nothing() {
    let mut writer = FeedWriter::new(&Policy::default(), Failing(true, Vec::new()));
    assert_eq!(writer.write(b"ab").expect("taken"), 2);
    assert_eq!(writer.write(b"cd").expect("taken"), 2);
    writer.finish().expect("an end");
    assert_eq!(writer.into_inner().1, b"abcd");
}

#[test]
fn a_reader_gives_the_formatted_thread() {
    let expected = formatted(THREAD.as_bytes());
    for length in [1, 2, 3, 7, 10_000] {
        let mut reader = FeedReader::new(&Policy::default(), THREAD.as_bytes());
        let (mut given, mut buffer) = (Vec::<u8>::new(), vec![0; length]);
        loop {
            match reader.read(&mut buffer).expect("read") {
                0 => break,
                more => given.extend(&buffer[..more]),
            }
        }
        assert_eq!(given, expected);
        assert_eq!(reader.read(&mut buffer).expect("the end again"), 0);
        assert_eq!(reader.feed().totals(), totals(THREAD.as_bytes()));
    }
    let slow = Slow {
        bytes: THREAD.into(),
        is_interrupted: false,
    };
    let mut given = Vec::new();
    let mut reader = FeedReader::new(&Policy::default(), slow);
    reader.read_to_end(&mut given).expect("read");
    assert_eq!(given, expected);
    assert!(reader.into_inner().bytes.is_empty());
}

#[test]
fn a_reader_gives_all_before_an_error_and_then_the_error() {
    for (thread, kind, expected) in [
        (
            &b"ab\xFFc"[..],
            ErrorKind::InvalidData,
            Refusal::NotWellFormed { valid_up_to: 2 },
        ),
        (
            b"ab\xE2\x9D",
            ErrorKind::UnexpectedEof,
            Refusal::UnfinishedCharacter,
        ),
    ] {
        let mut reader = FeedReader::new(&Policy::default(), thread);
        let mut given = Vec::new();
        for _ in 0..2 {
            let read = error(reader.read_to_end(&mut given));
            assert_eq!((read, &*given), ((kind, Some(expected)), &b"ab"[..]));
        }
        assert_eq!(reader.read(&mut []).expect("nothing is asked for"), 0);
    }
}
