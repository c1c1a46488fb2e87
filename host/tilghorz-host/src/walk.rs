//! The entries that a command line names: texts, and what is found in folders, in the order of the paths.

use std::collections::HashMap;
use std::ffi::{OsStr, OsString};
use std::fmt::{self, Display, Formatter};
use std::fs::{self, FileType};
use std::io;
use std::os::unix::ffi::OsStrExt;
use std::path::{Path, PathBuf};
use std::sync::Arc;
use std::vec::IntoIter;

use crate::glob::{Glob, units};
use crate::ignore::{self, Ignores};
use crate::replace::is_left_over;
use crate::source::Source;
use crate::visible;

/// Which files of folders are taken.
#[derive(Debug, Default, PartialEq, Eq)]
pub struct Selection {
    /// Whether those with a byte 00 are.
    pub binary: bool,
    /// Whether those are that a `.gitignore` ignores.
    pub no_ignore: bool,
    /// Patterns of those that are not.
    pub exclude: Vec<Pattern>,
    /// Patterns of those that are, if there is one.
    pub include: Vec<Pattern>,
}

/// A pattern of the command line.
#[derive(Debug, PartialEq, Eq)]
pub struct Pattern {
    text: Arc<str>,
    glob: Glob,
}

/// An entry.
pub enum Entry {
    /// A text.
    Text {
        /// Where it is.
        source: Source,
        /// Whether it is taken also if it has a byte 00.
        may_be_binary: bool,
    },
    /// What is passed over in a folder.
    PassedOver(PathBuf, Why),
    /// What keeps a folder from being gone through, and why.
    Unread(Source, String),
    /// What a command that was killed has left, and is removed.
    LeftOver(PathBuf),
}

/// Why something in a folder is passed over.
#[derive(Debug, Clone, PartialEq, Eq)]
pub enum Why {
    /// Its name begins with a full stop.
    Hidden,
    /// It is a symbolic link.
    Link,
    /// It is neither a file, a folder nor a link.
    Special,
    /// This `.gitignore` says so.
    Ignored(Arc<Path>),
    /// This `--exclude` says so.
    Excluded(Arc<str>),
    /// There is an `--include`, and none for it.
    NotIncluded,
}

impl Display for Why {
    fn fmt(&self, out: &mut Formatter<'_>) -> fmt::Result {
        match self {
            Self::Hidden => out.write_str("its name begins with a full stop"),
            Self::Link => out.write_str("it is a symbolic link"),
            Self::Special => out.write_str("it is not a regular file"),
            Self::Ignored(file) => {
                write!(out, "{} ignores it", Source::File(file.to_path_buf()))
            }
            Self::Excluded(pattern) => {
                write!(out, "--exclude {} matches it", visible::text(pattern))
            }
            Self::NotIncluded => out.write_str("no --include matches it"),
        }
    }
}

impl Pattern {
    /// Reads a pattern.
    pub fn of(text: &OsStr) -> Result<Self, String> {
        let name = text.to_string_lossy();
        match Glob::parse(text.as_bytes()) {
            Ok(glob) => Ok(Self {
                text: name.into(),
                glob,
            }),
            Err(fault) => Err(format!("{name}: not a pattern: {fault}")),
        }
    }
}

/// The entries of a command line.
pub struct Entries {
    /// Each.
    pub list: Vec<Entry>,
    /// Whether there may be several: more than one was named, or a folder.
    pub are_many: bool,
}

impl Entries {
    /// The entries of these names: standard input if there is none. If they are to be changed, each file is there only
    /// once, and what killed commands have left in folders is removed.
    pub fn of(names: &[Source], selection: &Selection, are_changed: bool) -> Self {
        let mut finder = Finder {
            selection,
            are_changed,
            list: Vec::new(),
            known: (are_changed && names.len() > 1).then(HashMap::new),
        };
        let mut are_many = names.len() > 1;
        if names.is_empty() {
            finder.add_named(&Source::Input);
        }
        for name in names {
            match name {
                Source::File(path) if path.is_dir() => {
                    are_many = true;
                    finder.walk(path);
                }
                _ => finder.add_named(name),
            }
        }
        Self {
            list: finder.list,
            are_many,
        }
    }
}

/// What has been found so far.
struct Finder<'a> {
    selection: &'a Selection,
    are_changed: bool,
    list: Vec<Entry>,
    /// The places of texts in the list, by their files, if each is to be there only once.
    known: Option<HashMap<PathBuf, usize>>,
}

/// A folder that is gone through.
struct Level {
    folder: PathBuf,
    left: IntoIter<(OsString, FileType)>,
    /// How many `.gitignore` files counted above it.
    ignores: usize,
    /// Whether all in it is included.
    is_included: bool,
}

/// The place in a folder that was named.
struct Place {
    levels: Vec<Level>,
    /// The names that lead there, from the root of the repository or from the folder that was named.
    path: Vec<Vec<u32>>,
    /// How many of them lead to the folder that was named.
    base: usize,
    ignores: Ignores,
    /// The folder that was named, without links in its path.
    root: Option<PathBuf>,
}

impl Finder<'_> {
    /// Adds a text that was named.
    fn add_named(&mut self, source: &Source) {
        let file = match source {
            Source::File(path) if self.known.is_some() => fs::canonicalize(path).ok(),
            _ => None,
        };
        self.add(source.clone(), file, true);
    }

    /// Adds a text, unless its file is there already.
    fn add(&mut self, source: Source, file: Option<PathBuf>, may_be_binary: bool) {
        if let (Some(known), Some(file)) = (&mut self.known, file) {
            let place = *known.entry(file).or_insert(self.list.len());
            if let Some(Entry::Text {
                may_be_binary: before,
                ..
            }) = self.list.get_mut(place)
            {
                *before |= may_be_binary;
                return;
            }
        }
        self.list.push(Entry::Text {
            source,
            may_be_binary,
        });
    }

    /// Adds what is in a folder and in its folders.
    fn walk(&mut self, folder: &Path) {
        let mut place = Place {
            levels: Vec::new(),
            path: Vec::new(),
            base: 0,
            ignores: Ignores::default(),
            root: fs::canonicalize(folder).ok(),
        };
        if let Err((file, error)) = self.look_above(&mut place) {
            self.unread(file, error.to_string());
            return;
        }
        self.enter(folder.to_owned(), false, &mut place);
        while let Some(level) = place.levels.last_mut() {
            let Some((name, kind)) = level.left.next() else {
                place.ignores.truncate(level.ignores);
                place.levels.pop();
                place.path.pop();
                continue;
            };
            let path = level.folder.join(&name);
            let is_included = level.is_included;
            place.path.push(units(name.as_bytes()));
            if self.are_changed && kind.is_file() && is_left_over(name.as_bytes()) {
                self.remove(path);
            } else if let Some(why) = self.why_not(&name, kind, &place) {
                self.list.push(Entry::PassedOver(path, why));
            } else {
                let is_included = is_included || self.is_included(&place, kind.is_dir());
                if kind.is_dir() {
                    self.enter(path, is_included, &mut place);
                    continue;
                }
                if is_included {
                    let file = place.file(folder, &path);
                    self.add(Source::File(path), file, self.selection.binary);
                } else {
                    self.list.push(Entry::PassedOver(path, Why::NotIncluded));
                }
            }
            place.path.pop();
        }
    }

    /// Reads the `.gitignore` files of the repository above the folder that was named.
    fn look_above(&self, place: &mut Place) -> Result<(), (PathBuf, io::Error)> {
        let Some(root) = &place.root else {
            return Ok(());
        };
        if self.selection.no_ignore {
            return Ok(());
        }
        let above = ignore::folders_above(root);
        for (depth, folder) in above.iter().enumerate() {
            let file = folder.join(ignore::FILE);
            if fs::symlink_metadata(&file).is_ok_and(|file| file.is_file()) {
                let added = place.ignores.add(folder, depth);
                added.map_err(|error| (file, error))?;
            }
        }
        if let Some(top) = above.first() {
            place.path = ignore::names(root.strip_prefix(top).unwrap_or(root));
            place.base = place.path.len();
        }
        Ok(())
    }

    /// Notes that something keeps a folder from being gone through.
    fn unread(&mut self, path: PathBuf, message: String) {
        self.list.push(Entry::Unread(Source::File(path), message));
    }

    /// Goes into a folder, or notes that it cannot be read.
    fn enter(&mut self, folder: PathBuf, is_included: bool, place: &mut Place) {
        let ignores = place.ignores.len();
        let left = match entries(&folder) {
            Ok(left) => left,
            Err(error) => {
                self.unread(folder, error.to_string());
                place.path.pop();
                return;
            }
        };
        let has_ignore = left
            .iter()
            .any(|(name, kind)| name == ignore::FILE && kind.is_file());
        if has_ignore
            && !self.selection.no_ignore
            && let Err(error) = place.ignores.add(&folder, place.path.len())
        {
            let message = format!("{error}, so its folder was passed over");
            self.unread(folder.join(ignore::FILE), message);
            place.path.pop();
            return;
        }
        place.levels.push(Level {
            folder,
            left: left.into_iter(),
            ignores,
            is_included,
        });
    }

    /// Why an entry is passed over, if it is.
    fn why_not(&self, name: &OsStr, kind: FileType, place: &Place) -> Option<Why> {
        let is_folder = kind.is_dir();
        if name.as_bytes().starts_with(b".") {
            return Some(Why::Hidden);
        }
        if kind.is_symlink() {
            return Some(Why::Link);
        }
        if !is_folder && !kind.is_file() {
            return Some(Why::Special);
        }
        let excluding = place.matching(&self.selection.exclude, is_folder);
        if let Some(pattern) = excluding {
            return Some(Why::Excluded(Arc::clone(&pattern.text)));
        }
        place
            .ignores
            .ignoring(&place.path, is_folder)
            .map(Why::Ignored)
    }

    /// Whether an entry is included by itself.
    fn is_included(&self, place: &Place, is_folder: bool) -> bool {
        let include = &self.selection.include;
        include.is_empty() || place.matching(include, is_folder).is_some()
    }

    /// Removes what a killed command has left. What cannot be removed is passed over.
    fn remove(&mut self, path: PathBuf) {
        self.list.push(match fs::remove_file(&path) {
            Ok(()) => Entry::LeftOver(path),
            Err(_) => Entry::PassedOver(path, Why::Hidden),
        });
    }
}

impl Place {
    /// The first of these patterns that is for the entry.
    fn matching<'p>(&self, patterns: &'p [Pattern], is_folder: bool) -> Option<&'p Pattern> {
        let path = &self.path[self.base..];
        let mut patterns = patterns.iter();
        patterns.find(|pattern| pattern.glob.matches(path, is_folder))
    }

    /// The file at a path in the folder that was named, without links in its path.
    fn file(&self, named: &Path, path: &Path) -> Option<PathBuf> {
        let below = path.strip_prefix(named).ok()?;
        Some(self.root.as_ref()?.join(below))
    }
}

/// The entries of a folder, in the order of their names.
fn entries(folder: &Path) -> io::Result<Vec<(OsString, FileType)>> {
    let entries = fs::read_dir(folder)?.map(|entry| {
        let entry = entry?;
        Ok((entry.file_name(), entry.file_type()?))
    });
    let mut entries = entries.collect::<io::Result<Vec<_>>>()?;
    entries.sort_by(|(one, _), (other, _)| one.cmp(other));
    Ok(entries)
}
