//! Where the page goes. The parts of the texts are in a file of their own until the front of the page is known, and the page is
//! renamed to its name when it is whole.

use std::env;
use std::fs::{self, File, Metadata};
use std::io::{self, BufWriter, Read, Seek, SeekFrom, Write};
use std::os::unix::fs::MetadataExt;
use std::path::Path;

use crate::console::Console;
use crate::page::overview::{END, KNOWN_BY, Overview};
use crate::replace::{Beside, OWN, folder_of};
use crate::source::Source;
use crate::walk::{Entries, Entry};

/// Where the page goes.
pub struct Output<'a> {
    /// The file; without one it is standard output.
    path: Option<&'a Path>,
    /// What it was before.
    before: Option<Metadata>,
    sections: File,
    /// The file of the parts, which goes away.
    _beside: Beside,
}

impl<'a> Output<'a> {
    /// Makes room for a page. A file that is no page is not replaced, and a page in a folder of texts is none of them.
    pub fn new(output: &'a Source, entries: &mut Entries) -> io::Result<Self> {
        let (path, folder) = match output {
            Source::File(path) => (Some(path.as_path()), folder_of(path)),
            Source::Input | Source::Named(_) => (None, env::temp_dir()),
        };
        let before = path.and_then(|path| fs::metadata(path).ok());
        if let (Some(path), Some(before)) = (path, &before) {
            if !before.is_file() || !is_page(path)? {
                return Err(io::Error::other(
                    "it is there already and is no page of this command, so it was not replaced",
                ));
            }
            entries.list.retain(|entry| !is_same(entry, before));
        }
        let (sections, beside) = Beside::create(&folder, OWN)?;
        Ok(Self {
            path,
            before,
            sections,
            _beside: beside,
        })
    }

    /// The file of the parts.
    pub fn sections(&self) -> io::Result<File> {
        self.sections.try_clone()
    }

    /// Writes the page.
    pub fn write(mut self, overview: &Overview<'_>, console: &mut Console) -> io::Result<()> {
        let Some(path) = self.path else {
            return write_page(overview, &mut self.sections, &mut console.out);
        };
        // The permissions of a new file are those that the user's mask leaves.
        let (file, mut beside) = Beside::create(&folder_of(path), 0o666)?;
        let mut out = BufWriter::with_capacity(1 << 16, file);
        write_page(overview, &mut self.sections, &mut out)?;
        out.flush()?;
        if let Some(before) = &self.before {
            out.get_ref().set_permissions(before.permissions())?;
        }
        beside.rename(path)
    }
}

/// Writes a page: its front, the parts of the texts, and its end.
fn write_page(
    overview: &Overview<'_>,
    sections: &mut File,
    out: &mut impl Write,
) -> io::Result<()> {
    overview.write(out)?;
    sections.seek(SeekFrom::Start(0))?;
    io::copy(sections, out)?;
    out.write_all(END.as_bytes())
}

/// Whether a file is a page of this command, or is empty.
fn is_page(path: &Path) -> io::Result<bool> {
    let mut beginning = Vec::new();
    let file = File::open(path)?;
    file.take(KNOWN_BY.len() as u64)
        .read_to_end(&mut beginning)?;
    Ok(beginning.is_empty() || beginning == KNOWN_BY.as_bytes())
}

/// Whether an entry is this file.
fn is_same(entry: &Entry, file: &Metadata) -> bool {
    let Entry::Text {
        source: Source::File(path),
        ..
    } = entry
    else {
        return false;
    };
    let is_same = |of: Metadata| (of.dev(), of.ino()) == (file.dev(), file.ino());
    fs::metadata(path).is_ok_and(is_same)
}
