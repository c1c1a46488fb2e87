//! No call panics, whatever it is given, and a refused call leaves the buffers as they were. The texts, offsets, stretches,
//! decisions and numbers are drawn, many of them at an edge.

use std::io::{self, Read, Write};

use tilghorz::{
    Context, Feed, FeedReader, FeedWriter, Key, KeySet, Policy, Presentation, Refusal, Store,
    Version, variation_entries,
};

/// The rounds of each test.
const ROUNDS: usize = 2000;

/// Parts of which texts are made: characters of every class, and damaged ones.
const PARTS: [&[u8]; 22] = [
    b"",
    b"a",
    b"1",
    b"#",
    b"\xC2\xA9",
    b"\xE2\x9D\xA4",
    b"\xE2\x8C\x9A",
    b"\xE2\x98\x9D",
    b"\xEF\xB8\x8E",
    b"\xEF\xB8\x8F",
    b"\xE2\x80\x8D",
    b"\xE2\x83\xA3",
    b"\xF0\x9F\x8F\xBB",
    b"\xF0\x9F\x87\xA6",
    b"\xF0\x9F\x8F\xB4",
    b"\xF3\xA0\x81\xA1",
    b"\xF3\xA0\x81\xBF",
    b"\xFF",
    b"\xE2\x9D",
    b"\xED\xA0\x80",
    b"\xF4\x90",
    b"\0",
];

/// Draws numbers, the same ones in each run.
struct Draw(u64);

impl Draw {
    fn word(&mut self) -> u64 {
        // Knuth's multiplier; the high bits are the good ones.
        self.0 = self
            .0
            .wrapping_mul(6_364_136_223_846_793_005)
            .wrapping_add(1);
        self.0.rotate_left(32)
    }

    fn below(&mut self, end: usize) -> usize {
        usize::try_from(self.word() % end as u64).expect("below")
    }

    /// A number that is small, around a length, or at an edge of the 64 bits.
    fn number(&mut self, length: usize) -> u64 {
        let near = length as u64;
        match self.below(8) {
            0 => 0,
            1 => u64::MAX,
            2 => u64::MAX - 1,
            3 => 1 << 56,
            4 => near,
            5 => near + 1,
            6 => self.word(),
            _ => self.word() % (near + 2),
        }
    }

    fn offset(&mut self, length: usize) -> usize {
        usize::try_from(self.number(length)).expect("64 bits")
    }

    fn text(&mut self) -> Vec<u8> {
        let whole = self.below(3) != 0;
        let parts = if whole { 17 } else { PARTS.len() };
        let drawn = (0..self.below(12)).map(|_| PARTS[self.below(parts)]);
        drawn.collect::<Vec<_>>().concat()
    }

    fn policy(&mut self) -> Policy {
        let mut policy = Policy::default();
        let entries = variation_entries();
        for _ in 0..self.below(400) {
            let (set, context) = (KeySet::ALL[self.below(2)], Context::ALL[self.below(2)]);
            let key = Key::new(entries[self.below(entries.len())], context);
            policy.flip(set, key.expect("an entry"));
        }
        policy
    }

    fn decisions(&mut self) -> Vec<Presentation> {
        let number = self.below(4);
        (0..number)
            .map(|_| Presentation::ALL[self.below(2)])
            .collect()
    }

    /// A buffer that is often too short.
    fn buffer(&mut self, length: usize) -> Vec<u8> {
        let length = self.below(4 * length + 20);
        vec![0xA5; length]
    }
}

/// Makes a call with a buffer, which is as it was if the call is refused.
fn into<T>(
    draw: &mut Draw,
    length: usize,
    call: impl FnOnce(&mut [u8]) -> Result<T, Refusal>,
) -> Result<(T, Vec<u8>), Refusal> {
    let mut buffer = draw.buffer(length);
    let answer = call(&mut buffer);
    assert!(answer.is_ok() || buffer.iter().all(|byte| *byte == 0xA5));
    answer.map(|answer| (answer, buffer))
}

#[test]
fn calls_on_a_text() {
    let mut draw = Draw(38);
    for _ in 0..ROUNDS {
        let (text, policy) = (draw.text(), draw.policy());
        let (from, to) = (draw.offset(text.len()), draw.offset(text.len()));
        let formatted = tilghorz::format(&text, &policy);
        let well_formed = std::str::from_utf8(&text).map_err(|error| Refusal::NotWellFormed {
            valid_up_to: error.valid_up_to(),
        });
        match (&formatted, well_formed) {
            (Ok(formatted), Ok(text)) => {
                let of_str = tilghorz::format_str(text, &policy).expect("a text");
                assert_eq!(of_str.as_bytes(), &**formatted);
            }
            (formatted, well_formed) => {
                assert_eq!(formatted.as_ref().err(), well_formed.as_ref().err());
            }
        }
        let found = tilghorz::findings(&text, &policy);
        let around = tilghorz::around(&text, &policy, from..to);
        let nearest = tilghorz::nearest(&text, &policy, from);
        let answers = [
            found.is_ok(),
            around.is_ok(),
            nearest.is_ok(),
            tilghorz::items(&text).is_ok(),
        ];
        assert_eq!(answers, [formatted.is_ok(); 4]);
        assert_eq!(tilghorz::tips(&text, &policy).is_ok(), formatted.is_ok());
        assert!(tilghorz::cut(&text, from).is_none_or(|cut| cut <= from && cut <= text.len()));
        let repaired = tilghorz::repair(&text).expect("a short text");
        assert_eq!(&*repaired.text, String::from_utf8_lossy(&text).as_bytes());
        let decisions = draw.decisions();
        let mended = tilghorz::mend(&text, &policy, to, &decisions);
        let defaults = tilghorz::default_decisions(&text, &policy, to);
        assert!(mended.is_err() || defaults.is_ok_and(|of| of.len() == decisions.len()));

        let written = into(&mut draw, text.len(), |out| {
            tilghorz::format_into(&text, &policy, out)
        });
        if let Ok((done, buffer)) = written {
            assert_eq!(
                formatted.as_deref(),
                Ok(tilghorz::filed(&text, &buffer, done))
            );
        }
        let written = into(&mut draw, text.len(), |out| {
            tilghorz::repair_into(&text, out)
        });
        if let Ok((done, buffer)) = written {
            assert_eq!(
                (&buffer[..done.len], done.replaced),
                (&*repaired.text, repaired.replaced)
            );
        }
        let written = into(&mut draw, text.len(), |out| {
            tilghorz::mend_into(&text, &policy, to, &decisions, out)
        });
        if let Ok((len, buffer)) = written {
            assert_eq!(mended.as_deref(), Ok(&buffer[..len]));
        }
    }
}

#[test]
fn calls_on_a_feed() {
    let mut draw = Draw(3);
    for _ in 0..ROUNDS / 4 {
        let policy = draw.policy();
        let (mut feed, mut out) = (Feed::new(&policy), Vec::new());
        let mut writer = FeedWriter::new(&policy, Vec::new());
        for _ in 0..draw.below(8) {
            let (piece, before) = (draw.text(), (feed.fed(), feed.totals(), out.len()));
            let answer = match draw.below(6) {
                0 => feed.finish(&mut out),
                1 => into(&mut draw, piece.len(), |out| {
                    feed.clone().write_into(&piece, out)
                })
                .map(|(len, _)| len),
                2 => into(&mut draw, 0, |out| feed.clone().finish_into(out)).map(|(len, _)| len),
                _ => feed.write(&piece, &mut out),
            };
            if answer.is_err() {
                assert_eq!((feed.fed(), feed.totals(), out.len()), before);
            }
            let _ = writer.write(&piece);
        }
        let _ = writer.finish();
        let thread = draw.text();
        let mut read = Vec::new();
        let whole = FeedReader::new(&policy, &thread[..]).read_to_end(&mut read);
        let formatted = tilghorz::format(&thread, &policy);
        assert_eq!(whole.is_ok(), formatted.is_ok());
        assert!(formatted.is_err() || formatted.is_ok_and(|formatted| *formatted == read));
    }
}

#[test]
fn calls_on_a_store() {
    let mut draw = Draw(10);
    for _ in 0..ROUNDS / 8 {
        let reserves: Vec<u64> = (0..draw.below(20)).map(|_| draw.number(20)).collect();
        let capacity = draw.number(400);
        let Ok(mut store) = Store::new(capacity, &reserves) else {
            continue;
        };
        for _ in 0..40 {
            let (text, policy) = (draw.text(), draw.policy());
            let (client, number, before) = (draw.number(16), draw.number(3), store.clone());
            let is_done = match draw.below(4) {
                0 => store.release(client, number).is_ok(),
                1 => store.used(client).is_ok(),
                2 => into(&mut draw, text.len(), |out| {
                    store.file_into(&text, &policy, client, number, out)
                })
                .is_ok(),
                _ => store.file(&text, &policy, client, number).is_ok(),
            };
            assert!(is_done || store == before);
        }
    }
}

#[test]
fn bytes_and_texts_that_are_to_be_values() {
    let mut draw = Draw(6);
    for _ in 0..ROUNDS {
        let mut bytes = draw.policy().as_bytes().to_vec();
        let (place, bit) = (draw.below(bytes.len()), draw.below(8));
        bytes[place] ^= 1 << bit;
        bytes.truncate(200 - draw.below(3));
        if let Ok(policy) = Policy::from_bytes(&bytes) {
            assert_eq!(policy.to_string().parse(), Ok(policy));
        }
        let _ = Version::of_policy(&bytes[..draw.below(12)]);
        let mut sheet = b"30-39,2764\n\nA9,231A\n\n".to_vec();
        let place = draw.below(sheet.len());
        sheet[place] = [b'0', b'-', b',', b'\n', b'F', b' '][draw.below(6)];
        if let Ok(policy) = Policy::from_sheet(&sheet) {
            assert_eq!(Policy::from_sheet(&policy.to_sheet()), Ok(policy.clone()));
            let written = into(&mut draw, 8, |out| policy.write_sheet_into(out));
            assert!(
                written.is_err() || written.is_ok_and(|(len, _)| len == policy.to_sheet().len())
            );
        }
        let text = String::from_utf8_lossy(&draw.text()).into_owned();
        assert!(text.parse::<Key>().is_err() && text.parse::<KeySet>().is_err());
        let _ = Presentation::from_bytes(text.as_bytes());
    }
}

/// A writer and a reader that say that they took or gave more than they did.
struct Boaster;

impl Write for Boaster {
    fn write(&mut self, bytes: &[u8]) -> io::Result<usize> {
        Ok(if bytes.len() > 1 { 1 } else { usize::MAX })
    }

    fn flush(&mut self) -> io::Result<()> {
        Ok(())
    }
}

impl Read for Boaster {
    fn read(&mut self, out: &mut [u8]) -> io::Result<usize> {
        out.fill(b'a');
        Ok(usize::MAX)
    }
}

#[test]
fn a_writer_and_a_reader_that_say_too_much() {
    let policy = Policy::default();
    let mut writer = FeedWriter::new(&policy, Boaster);
    for piece in [&b"abc"[..], b"", b"\xE2\x9D\xA4", b"."] {
        assert_eq!(writer.write(piece).expect("taken"), piece.len());
    }
    writer.finish().expect("an end");
    let mut out = vec![0; 100_000];
    let mut reader = FeedReader::new(&policy, Boaster);
    reader.read_exact(&mut out).expect("a text without an end");
    assert!(out.iter().all(|byte| *byte == b'a'));
}
