//! Files' bytes exchanged for others, so that no reader and no accident finds a file half written.
//!
//! The new bytes are written beside the file, synced, and renamed. Many files are synced at once, where their file system
//! syncs all that was written by one call and tells whether it could.

use std::collections::{BTreeMap, BTreeSet};
use std::ffi::CStr;
use std::fs::{self, File, Metadata, OpenOptions, Permissions};
use std::io::{self, Error, ErrorKind, Write};
use std::os::unix::fs::{MetadataExt, OpenOptionsExt, PermissionsExt, fchown};
use std::path::{Path, PathBuf};
use std::process;
use std::sync::atomic::{AtomicU64, Ordering};
use std::sync::{Mutex, OnceLock, PoisonError};

use crate::interrupt;
use crate::source::{Source, Text};
use crate::system;

/// How files are changed in place.
#[derive(Debug, Clone, Copy, PartialEq, Eq)]
pub struct InPlace {
    /// Whether another owner or group is accepted where the file's own cannot be kept.
    pub new_owner: bool,
    /// Whether the files are synced.
    pub sync: bool,
}

/// Files for which new bytes stand beside them.
pub struct Batch<'a> {
    how: InPlace,
    folders: &'a Folders,
    files: Vec<Prepared>,
    /// For each file system that is synced at once, a file on it that was made for this batch.
    file_systems: BTreeMap<u64, File>,
    /// The bytes written.
    length: usize,
}

/// A file for which new bytes stand beside it.
struct Prepared {
    path: PathBuf,
    seen: Metadata,
    beside: Beside,
    /// The file system, if it is to be synced before the file is renamed.
    unsynced: Option<u64>,
}

/// A file beside another. It goes away, unless it is renamed.
pub struct Beside {
    path: PathBuf,
    is_renamed: bool,
}

/// The folders in which files were renamed, to be synced at the end.
#[derive(Default)]
pub struct Folders(Mutex<Renamed>);

#[derive(Default)]
struct Renamed {
    /// A file on each file system that is synced at once.
    file_systems: BTreeMap<u64, File>,
    /// The folders on others.
    folders: BTreeSet<PathBuf>,
}

impl<'a> Batch<'a> {
    /// The most files of a batch.
    pub const MOST_FILES: usize = 512;
    /// With as many bytes a batch is full.
    const MOST_BYTES: usize = 1 << 26;

    /// No file yet.
    pub fn new(how: InPlace, folders: &'a Folders) -> Self {
        Self {
            how,
            folders,
            files: Vec::new(),
            file_systems: BTreeMap::new(),
            length: 0,
        }
    }

    /// Whether it is to be committed before there are more.
    pub fn is_full(&self) -> bool {
        self.files.len() >= Self::MOST_FILES || self.length >= Self::MOST_BYTES
    }

    /// Writes new bytes beside the file from which a text was read, with its permissions, owner, group and extended
    /// attributes. Of a symbolic link it is the file that it leads to.
    pub fn prepare(&mut self, source: &Source, text: &Text, bytes: &[u8]) -> io::Result<()> {
        self.prepare_by(source, text, |file| file.write_all(bytes))
    }

    /// The same with the bytes that a function writes.
    pub fn prepare_by(
        &mut self,
        source: &Source,
        text: &Text,
        write: impl FnOnce(&mut File) -> io::Result<()>,
    ) -> io::Result<()> {
        let (Source::File(path), Some((read, seen))) = (source, &text.file) else {
            return Err(fault("it is not a regular file"));
        };
        accept(seen)?;
        let path = if fs::symlink_metadata(path)?.is_symlink() {
            fs::canonicalize(path)?
        } else {
            path.clone()
        };
        let (mut file, beside) = Beside::create(&folder_of(&path), OWN)?;
        write(&mut file)?;
        let own = file.metadata()?;
        let is_owner_kept = keep_owner(&file, &own, seen, self.how.new_owner)?;
        keep_attributes(read, &file)?;
        file.set_permissions(permissions(seen, is_owner_kept))?;
        let unsynced = self.sync_or_note(file, own.dev())?;
        self.length = self.length.saturating_add(own.len() as usize);
        self.files.push(Prepared {
            path,
            seen: seen.clone(),
            beside,
            unsynced,
        });
        Ok(())
    }

    /// Syncs a file, or keeps it where its file system, which has this number, is synced at once, and gives the number.
    fn sync_or_note(&mut self, file: File, number: u64) -> io::Result<Option<u64>> {
        if !self.how.sync {
            return Ok(None);
        }
        if self.file_systems.contains_key(&number) || is_synced_at_once(&file) {
            self.file_systems.entry(number).or_insert(file);
            return Ok(Some(number));
        }
        file.sync_all()?;
        Ok(None)
    }

    /// Syncs what is left to sync and renames the files, and says of each what came of it, in the order in which they were
    /// prepared.
    pub fn commit(&mut self) -> Vec<io::Result<()>> {
        self.length = 0;
        let file_systems = std::mem::take(&mut self.file_systems);
        let synced: BTreeSet<u64> = file_systems
            .iter()
            .filter(|(_, file)| system::sync_file_system(file).is_ok())
            .map(|(number, _)| *number)
            .collect();
        let files = std::mem::take(&mut self.files);
        let results = files.into_iter().map(|file| {
            let is_synced = file.unsynced.is_none_or(|number| synced.contains(&number));
            let stands_alone = self.how.sync && file.unsynced.is_none();
            let folder = stands_alone.then(|| folder_of(&file.path));
            file.rename(is_synced)?;
            if let Some(folder) = folder {
                self.folders.lock().folders.insert(folder);
            }
            Ok(())
        });
        let results = results.collect();
        let mut renamed = self.folders.lock();
        for (number, file) in file_systems {
            renamed.file_systems.entry(number).or_insert(file);
        }
        results
    }
}

impl Prepared {
    /// Renames it, if the file is still the one that was seen. What was not synced with others is synced now.
    fn rename(mut self, is_synced: bool) -> io::Result<()> {
        let beside = &mut self.beside;
        if !is_synced {
            File::open(&beside.path)?.sync_all()?;
        }
        let _old = held(&self.path);
        let _turn = interrupt::turn();
        is_as_seen(&self.path, &self.seen)?;
        beside.rename(&self.path)?;
        interrupt::count_changed();
        Ok(())
    }
}

/// What a path names, kept and not opened. Without it the renaming over a file frees its blocks, and the file system may wait
/// for the disk then, while nothing else can be made or renamed in the folder. With it they are freed after the renaming, and
/// the other threads go on. Where it cannot be kept, the renaming frees them.
fn held(path: &Path) -> Option<File> {
    /// O_PATH of Linux. Such an open needs no permission to read, and waits for no pipe.
    const PATH_ONLY: i32 = 0o10_000_000;
    let mut options = OpenOptions::new();
    options.read(true).custom_flags(PATH_ONLY);
    options.open(path).ok()
}

impl Beside {
    /// A new file in a folder, with the permissions of a mode.
    pub fn create(folder: &Path, mode: u32) -> io::Result<(File, Self)> {
        const MOST_TRIES: u32 = 1000;
        static NUMBER: AtomicU64 = AtomicU64::new(0);
        for _ in 0..MOST_TRIES {
            let number = NUMBER.fetch_add(1, Ordering::Relaxed);
            let path = folder.join(format!("{BEGINNING}{}-{number}{END}", process::id()));
            let mut options = OpenOptions::new();
            options.read(true).write(true).create_new(true).mode(mode);
            let _turn = interrupt::turn();
            match options.open(&path) {
                Ok(file) => {
                    interrupt::remember(&path);
                    let is_renamed = false;
                    return Ok((file, Self { path, is_renamed }));
                }
                Err(error) if error.kind() == ErrorKind::AlreadyExists => {}
                Err(error) => return Err(error),
            }
        }
        Err(fault("no name for a temporary file in its folder is free"))
    }

    /// Gives it a name of its own. A file of that name is replaced.
    pub fn rename(&mut self, path: &Path) -> io::Result<()> {
        fs::rename(&self.path, path)?;
        self.is_renamed = true;
        Ok(())
    }
}

impl Drop for Beside {
    fn drop(&mut self) {
        if !self.is_renamed {
            // What cannot be taken away stays; a later run takes it.
            let _ = fs::remove_file(&self.path);
        }
        interrupt::forget(&self.path);
    }
}

impl Folders {
    fn lock(&self) -> std::sync::MutexGuard<'_, Renamed> {
        self.0.lock().unwrap_or_else(PoisonError::into_inner)
    }

    /// Syncs the folders, so that what was renamed stays so after a loss of power. What cannot be synced is told; a folder
    /// that may not be opened, or of which the file system can sync none, is passed over.
    pub fn sync(&self) -> Vec<String> {
        let mut faults = Vec::new();
        let renamed = self.lock();
        for file in renamed.file_systems.values() {
            if let Err(error) = system::sync_file_system(file) {
                faults.push(format!("the folders could not be synced: {error}"));
            }
        }
        for folder in &renamed.folders {
            match File::open(folder).and_then(|folder| folder.sync_all()) {
                Err(error) if !is_passed_over(&error) => {
                    let folder = Source::File(folder.clone());
                    faults.push(format!("{folder}: it could not be synced: {error}"));
                }
                _ => {}
            }
        }
        faults
    }
}

/// Whether a folder that gives this error is passed over when it is synced.
fn is_passed_over(error: &Error) -> bool {
    use ErrorKind::{InvalidInput, NotFound, PermissionDenied, Unsupported};
    matches!(
        error.kind(),
        InvalidInput | NotFound | PermissionDenied | Unsupported
    )
}

/// The mode of a file that only this user can read.
pub const OWN: u32 = 0o600;

/// The beginning of the name of a file beside another; the number of the process and a number follow.
const BEGINNING: &str = ".tilghorz-";
/// The end of its name.
const END: &str = ".tmp";

/// Whether a name is that of a file beside another whose process has ended. This process has made none yet.
pub fn is_left_over(name: &[u8]) -> bool {
    let process = || {
        let name = std::str::from_utf8(name).ok()?;
        let numbers = name.strip_prefix(BEGINNING)?.strip_suffix(END)?;
        let (process, number) = numbers.split_once('-')?;
        number.parse::<u64>().ok()?;
        process.parse::<u32>().ok()
    };
    process().is_some_and(|number| number == process::id() || !system::is_process(number))
}

/// Whether one call syncs all files on the file system of a file, and tells whether it could. Others are passed by: an
/// overlay does not tell, and a file system in user space need not sync.
fn is_synced_at_once(file: &File) -> bool {
    /// ext2 to ext4, XFS, Btrfs, F2FS, tmpfs.
    const KINDS: [i64; 5] = [0xEF53, 0x5846_5342, 0x9123_683E, 0xF2F5_2010, 0x0102_1994];
    static TELLS: OnceLock<bool> = OnceLock::new();
    *TELLS.get_or_init(system_tells)
        && system::file_system_kind(file).is_ok_and(|kind| KINDS.contains(&kind))
}

/// Whether the system tells that a file system could not be synced: Linux does from 5.8 on.
fn system_tells() -> bool {
    let release = fs::read_to_string("/proc/sys/kernel/osrelease").unwrap_or_default();
    let mut numbers = release
        .split(|each: char| !each.is_ascii_digit())
        .map(|number| number.parse::<u32>().unwrap_or(0));
    let version = (numbers.next(), numbers.next());
    version >= (Some(5), Some(8))
}

/// The folder in which a file is.
pub fn folder_of(path: &Path) -> PathBuf {
    match path.parent() {
        Some(folder) if folder != Path::new("") => folder.to_owned(),
        _ => PathBuf::from("."),
    }
}

/// Whether a file may be changed.
fn accept(seen: &Metadata) -> io::Result<()> {
    if !seen.is_file() {
        return Err(fault(
            "it is no regular file, and only those are changed in place",
        ));
    }
    if seen.permissions().readonly() {
        return Err(fault("it is read-only, and was left as it was"));
    }
    Ok(())
}

/// Gives a file, which has its own now, the owner and the group of the one that was seen, and says whether it has both. If
/// another owner is accepted, the group is kept where it can be.
fn keep_owner(
    file: &File,
    own: &Metadata,
    seen: &Metadata,
    is_another_accepted: bool,
) -> io::Result<bool> {
    if (own.uid(), own.gid()) == (seen.uid(), seen.gid()) {
        return Ok(true);
    }
    match fchown(file, Some(seen.uid()), Some(seen.gid())) {
        Ok(()) => Ok(true),
        Err(_) if is_another_accepted => {
            let _ = fchown(file, None, Some(seen.gid()));
            Ok(false)
        }
        Err(error) => Err(fault(&format!(
            "its owner and group could not be kept, and it was left as it was (--new-owner accepts that): {error}"
        ))),
    }
}

/// The permissions of the file that was seen. Under another owner or group a program does not run as them.
fn permissions(seen: &Metadata, is_owner_kept: bool) -> Permissions {
    const AS_OWNER_OR_GROUP: u32 = 0o6000;
    let mode = seen.mode() & 0o7777;
    let dropped = if is_owner_kept { 0 } else { AS_OWNER_OR_GROUP };
    Permissions::from_mode(mode & !dropped)
}

/// Gives a file the extended attributes of another, access control lists among them, and no others.
fn keep_attributes(from: &File, to: &File) -> io::Result<()> {
    let names = system::attribute_names(from)?;
    let kept = |name: &CStr, done: io::Result<()>| {
        done.map_err(|error| {
            let name = name.to_string_lossy();
            fault(&format!(
                "its extended attribute {name} could not be kept, and it was left as it was: {error}"
            ))
        })
    };
    for name in system::attribute_names(to)? {
        if !names.contains(&name) {
            kept(&name, system::remove_attribute(to, &name))?;
        }
    }
    for name in names {
        let copied = system::attribute(from, &name).and_then(|value| {
            let has_it = system::attribute(to, &name).is_ok_and(|own| own == value);
            if has_it {
                Ok(())
            } else {
                system::set_attribute(to, &name, &value)
            }
        });
        kept(&name, copied)?;
    }
    Ok(())
}

/// Whether the file is still the one that was seen.
fn is_as_seen(path: &Path, seen: &Metadata) -> io::Result<()> {
    let bytes = |of: &Metadata| (of.dev(), of.ino(), of.len(), of.mtime(), of.mtime_nsec());
    let rights = |of: &Metadata| (of.mode(), of.uid(), of.gid());
    let found = fs::symlink_metadata(path)?;
    if (bytes(&found), rights(&found)) != (bytes(seen), rights(seen)) {
        return Err(fault(
            "another program changed it during the run, so it was not written",
        ));
    }
    Ok(())
}

/// A fault that the system has no word for.
fn fault(message: &str) -> Error {
    Error::other(message.to_owned())
}
