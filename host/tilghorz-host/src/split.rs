//! `tilghorz-host split`: an export of any size is cut into parts that are formatted apart and joined.
//!
//! The parts are as even as the allowed cuts let them be: no other cutting into N parts has a shorter longest part. Of the file
//! no more is held than some thousand bytes; of each part, where it ends.

use std::fs::{self, File, Metadata, OpenOptions};
use std::io::{self, Read, Write};
use std::num::NonZero;
use std::os::unix::fs::{FileExt, MetadataExt, OpenOptionsExt};
use std::path::{Path, PathBuf};
use std::process;

use tilghorz::LONGEST_TEXT;

use crate::console::{Console, Status};
use crate::interrupt;
use crate::source::Source;

/// How many bytes before an offset are searched at once for a cut.
const SEARCHED: u64 = 1 << 12;
/// The most bytes of a character. With as many bytes after an offset, a cut there is seen.
const CHARACTER: u64 = 4;

/// The command.
#[derive(Debug, PartialEq, Eq)]
pub struct Split {
    /// How many parts there are to be.
    pub parts: NonZero<usize>,
    /// The folder of the parts.
    pub folder: PathBuf,
    /// The export.
    pub file: PathBuf,
}

/// Why there are no parts.
enum Fault {
    /// A message about the file or the folder.
    Told(String),
    /// A part would be too long. This is the least number of parts with which none is.
    TooFew(usize),
    /// From here on no cut is allowed within the length of a text.
    NoCut(u64),
}

/// A file that is cut.
pub struct Export<'a> {
    file: &'a File,
    length: u64,
}

/// The ends of the parts of an export, or where no cut is allowed.
type Ends = Result<Vec<u64>, u64>;

impl Split {
    /// Cuts the export, and writes a line for each part: its start, its end and its name. An error is one of standard output.
    pub fn run(&self, console: &mut Console) -> io::Result<Status> {
        let source = Source::File(self.file.clone());
        let number = self.parts;
        match self.cut() {
            Ok(ends) => {
                let mut start = 0;
                for (end, name) in ends.iter().zip(self.names()) {
                    write!(console.out, "{start} {end} ")?;
                    let name = Source::File(self.folder.join(name));
                    console.out.write_all(name.name())?;
                    console.out.write_all(b"\n")?;
                    start = *end;
                }
                return Ok(Status::Good);
            }
            Err(Fault::Told(message)) => console.complain(&message),
            Err(Fault::TooFew(least)) => console.complain(&format_args!(
                "{source}: cut into {number}, a part would have more than 16,777,216 bytes\ntry: --parts {least}"
            )),
            Err(Fault::NoCut(start)) => console.complain(&format_args!(
                "{source}: no cut is allowed within 16,777,216 bytes from byte {start} on, so no number of parts is enough"
            )),
        }
        Ok(Status::Fault)
    }

    /// Cuts the export, and says where the parts end.
    fn cut(&self) -> Result<Vec<u64>, Fault> {
        let told = |path: &Path, error: &dyn std::fmt::Display| {
            Fault::Told(format!("{}: {error}", Source::File(path.to_owned())))
        };
        is_free(&self.folder).map_err(|error| told(&self.folder, &error))?;
        let opened = File::open(&self.file).and_then(|file| Ok((file.metadata()?, file)));
        let (seen, file) = opened.map_err(|error| told(&self.file, &error))?;
        if !seen.is_file() {
            return Err(told(
                &self.file,
                &"it is no regular file, and only those are split",
            ));
        }
        let export = Export {
            file: &file,
            length: seen.len(),
        };
        let ends = export.even_ends(self.parts.get());
        let ends = ends.map_err(|error| told(&self.file, &error))??;
        let written = self.write(&file, &seen, &ends);
        written.map_err(|(path, error)| told(&path, &error))?;
        Ok(ends)
    }

    /// Writes the parts to a new folder beside the one that is wanted, and renames it. On an error neither is there.
    fn write(
        &self,
        file: &File,
        seen: &Metadata,
        ends: &[u64],
    ) -> Result<(), (PathBuf, io::Error)> {
        let beside = beside(&self.folder);
        let in_folder = |error| (self.folder.clone(), error);
        interrupt::watch_folder(&beside);
        let turn = interrupt::turn();
        fs::create_dir(&beside).map_err(in_folder)?;
        drop(turn);
        let written = self.write_parts(&beside, file, seen, ends);
        let written = written.and_then(|()| {
            let _turn = interrupt::turn();
            fs::rename(&beside, &self.folder).map_err(in_folder)
        });
        if written.is_err() {
            // What cannot be taken away stays.
            let _ = fs::remove_dir_all(&beside);
        }
        written
    }

    /// Writes the parts to a folder. None can be read by more users than the file.
    fn write_parts(
        &self,
        folder: &Path,
        file: &File,
        seen: &Metadata,
        ends: &[u64],
    ) -> Result<(), (PathBuf, io::Error)> {
        let mut options = OpenOptions::new();
        options.write(true).create_new(true);
        options.mode(seen.mode() & 0o777 | 0o600);
        let mut start = 0;
        for (end, name) in ends.iter().zip(self.names()) {
            let _turn = interrupt::turn();
            let in_folder = |error| (self.folder.join(&name), error);
            let mut part = options.open(folder.join(&name)).map_err(in_folder)?;
            let length = end - start;
            let copied = io::copy(&mut file.take(length), &mut part).map_err(in_folder)?;
            is_as_seen(file, seen, copied == length).map_err(|error| (self.file.clone(), error))?;
            start = *end;
        }
        Ok(())
    }

    /// The names of the parts, which sort in their order.
    fn names(&self) -> impl Iterator<Item = String> {
        let number = self.parts.get();
        let digits = number.to_string().len();
        (1..=number).map(move |part| format!("part-{part:0digits$}"))
    }
}

/// Whether a folder is not there yet.
fn is_free(folder: &Path) -> io::Result<()> {
    match fs::symlink_metadata(folder) {
        Ok(_) => Err(io::Error::other(
            "it is there already, and split makes a new folder",
        )),
        Err(error) if error.kind() == io::ErrorKind::NotFound => Ok(()),
        Err(error) => Err(error),
    }
}

/// A name for a folder beside another.
fn beside(folder: &Path) -> PathBuf {
    folder.with_file_name(format!(".tilghorz-{}-parts.tmp", process::id()))
}

/// Whether the file is still the one that was seen.
fn is_as_seen(file: &File, seen: &Metadata, is_whole: bool) -> io::Result<()> {
    let state = |of: &Metadata| (of.len(), of.mtime(), of.mtime_nsec());
    if is_whole && state(&file.metadata()?) == state(seen) {
        return Ok(());
    }
    Err(io::Error::other(
        "another program changed it during the run, so it was not split",
    ))
}

impl Export<'_> {
    /// The ends of this many parts, of which the longest is as short as it can be. The last parts may be empty.
    fn even_ends(&self, parts: usize) -> io::Result<Result<Vec<u64>, Fault>> {
        let mut longest = LONGEST_TEXT as u64;
        let mut ends = match self.ends(longest)? {
            Err(start) => return Ok(Err(Fault::NoCut(start))),
            Ok(ends) if ends.len() > parts => return Ok(Err(Fault::TooFew(ends.len()))),
            Ok(ends) => ends,
        };
        // With parts up to `longest` that number is enough, and with parts below `shortest` it is not.
        let mut shortest = self.length.div_ceil(parts as u64);
        while shortest < longest {
            let middle = shortest.midpoint(longest);
            match self.ends(middle)? {
                Ok(found) if found.len() <= parts => {
                    ends = found;
                    longest = middle;
                }
                _ => shortest = middle + 1,
            }
        }
        ends.resize(parts, self.length);
        Ok(Ok(ends))
    }

    /// The ends of the fewest parts of at most `longest` bytes: each is as long as it can be. If there are no such parts, it is
    /// the start of the first that would be longer.
    fn ends(&self, longest: u64) -> io::Result<Ends> {
        let (mut ends, mut start) = (Vec::new(), 0);
        while start < self.length {
            match self.cut(start, start.saturating_add(longest))? {
                None => return Ok(Err(start)),
                Some(end) => ends.push(end),
            }
            start = ends.last().copied().unwrap_or(self.length);
        }
        Ok(Ok(ends))
    }

    /// The largest allowed cut after `start` and at or below `offset`. Whether a cut is allowed depends on what is after it
    /// alone, so a stretch of the file is searched by itself.
    fn cut(&self, start: u64, mut offset: u64) -> io::Result<Option<u64>> {
        if offset >= self.length {
            return Ok(Some(self.length));
        }
        while start < offset {
            let from = offset.saturating_sub(SEARCHED).max(start + 1);
            let to = (offset + CHARACTER).min(self.length);
            let mut bytes = vec![0; (to - from) as usize];
            self.file.read_exact_at(&mut bytes, from)?;
            if let Some(cut) = tilghorz::cut(&bytes, (offset - from) as usize) {
                return Ok(Some(from + cut as u64));
            }
            offset = from - 1;
        }
        Ok(None)
    }
}
