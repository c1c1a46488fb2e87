//! Links the proved static library. One that the variable names must be there; without the variable it is the one that
//! the repository makes. Where that is missing, or was made from other sources or with another kit, it is made now. The
//! library is then put into cargo's own folder for this package, `OUT_DIR`, and is linked there. So what is linked stays as
//! it is when the library is made anew. A fault is told to cargo and ends the build.

use std::collections::hash_map::DefaultHasher;
use std::env;
use std::ffi::OsString;
use std::fs;
use std::hash::{Hash, Hasher};
use std::io;
use std::path::{Path, PathBuf};
use std::process::{Command, Output, Stdio};

/// The variable that names the folder of the library. A relative name counts from the repository root.
pub const VARIABLE: &str = "TILGHORZ_LIBRARY";
/// Where the library is without the variable, from the repository root.
const MADE_HERE: &str = "target/staticlib";
/// The file.
const FILE: &str = "libtilghorz.a";
/// Beside it stands what it was made from: a digest of the sources, the kit, and a digest of the library itself.
const MADE_FROM: &str = "libtilghorz.a.made-from";
/// What the sources are, from the repository root.
const SOURCES: [&str; 2] = ["crates.txt", "crates"];
/// The folder of a crate for what `rt` makes of it. No source is in it.
const OUT: &str = "out";
/// The command that makes the library, in the folder of its crate. It is proved first, which takes minutes from a fresh clone.
const RT: &str = "rt";
/// Its argument.
const MAKE: &str = "lib";
/// The folder of the crate, from the repository root.
const CRATE: &str = "crates/tilghorz_c";
/// What the command makes there, under the name of the crate.
const MADE: &str = "out/libtilghorz_c.a";

fn main() {
    println!("cargo::rerun-if-env-changed={VARIABLE}");
    match library_in_own_folder() {
        Ok(folder) => {
            println!("cargo::rustc-link-search=native={}", folder.display());
            println!("cargo::rustc-link-lib=static=tilghorz");
            // For the test of the C header.
            println!("cargo::rustc-env=TILGHORZ_FOLDER={}", folder.display());
            let note = fs::read_to_string(folder.join(MADE_FROM)).ok();
            let kit = note.as_deref().and_then(noted_kit);
            let kit = kit.unwrap_or("an unknown kit".to_owned());
            println!("cargo::rustc-env=TILGHORZ_KIT={kit}");
        }
        Err(fault) => {
            for line in fault.lines() {
                println!("cargo::error={line}");
            }
        }
    }
}

/// Puts the library into cargo's folder for this package, and gives that folder.
fn library_in_own_folder() -> Result<PathBuf, String> {
    let found = library_folder()?;
    println!("cargo::rerun-if-changed={}", found.join(FILE).display());
    let own = env::var_os("OUT_DIR").map(PathBuf::from);
    let own = own.ok_or("cargo names no folder for this package, OUT_DIR")?;
    put(&found, &own)?;
    Ok(own)
}

/// Puts the library of a folder into another one.
///
/// # Errors
/// If the library cannot be copied.
pub fn put(from: &Path, to: &Path) -> Result<(), String> {
    let (from, to) = (from.join(FILE), to.join(FILE));
    // A copy keeps the permissions, and one that may not be written could not be replaced.
    let copied = fs::read(&from).and_then(|library| fs::write(&to, library));
    copied.map_err(|error| format!("{} to {}: {error}", from.display(), to.display()))
}

/// The folder in which the library is.
fn library_folder() -> Result<PathBuf, String> {
    let named = env::var_os(VARIABLE).filter(|name| !name.is_empty());
    match place(named, repository_root())? {
        Place::Named(folder) if folder.join(FILE).is_file() => Ok(folder),
        Place::Named(folder) => Err(format!(
            "{VARIABLE} names a folder without the library: {} is missing",
            folder.join(FILE).display()
        )),
        Place::Made(root) => {
            watch(&root);
            if let Some(why) = bring_up_to_date(&root, Path::new(RT))? {
                println!("cargo::warning={MADE_HERE}/{FILE} {why}, and was made anew");
            }
            Ok(root.join(MADE_HERE))
        }
    }
}

/// Has cargo run this again when a source or the kit is another. A folder is watched with all that is in it, and `rt` writes to
/// the folder `out` of each crate, so what is beside that folder is named.
fn watch(root: &Path) {
    for source in SOURCES.iter().flat_map(|source| watched(root, source)) {
        println!("cargo::rerun-if-changed={}", source.display());
    }
    println!("cargo::rerun-if-env-changed=PATH");
    let paths = env::var_os("PATH").unwrap_or_default();
    let found = env::split_paths(&paths).find_map(|path| fs::canonicalize(path.join(RT)).ok());
    let kit = found.as_deref().and_then(|rt| rt.ancestors().nth(2));
    if let Some(kit) = kit
        .map(|kit| kit.join("KIT-ID"))
        .filter(|kit| kit.is_file())
    {
        println!("cargo::rerun-if-changed={}", kit.display());
    }
}

/// A file; or, of the folder of the crates, what each crate has beside its folder `out`.
fn watched(root: &Path, source: &str) -> Vec<PathBuf> {
    let inside = |folder: &Path| -> Vec<PathBuf> {
        let entries = fs::read_dir(folder).into_iter().flatten().flatten();
        entries.map(|entry| entry.path()).collect()
    };
    let path = root.join(source);
    if !path.is_dir() {
        return vec![path];
    }
    let mut found: Vec<PathBuf> = inside(&path).iter().flat_map(|of| inside(of)).collect();
    found.retain(|path| path.file_name() != Some(OUT.as_ref()));
    found.sort();
    found
}

/// Makes the library, if it is missing or was made from other sources or with another kit; and says why, if it was there.
///
/// # Errors
/// If the library cannot be made, or if the sources or the library cannot be read.
pub fn bring_up_to_date(root: &Path, rt: &Path) -> Result<Option<&'static str>, String> {
    let (file, note) = (
        root.join(MADE_HERE).join(FILE),
        root.join(MADE_HERE).join(MADE_FROM),
    );
    let noted = fs::read_to_string(&note).ok();
    let sources = digest(root, &SOURCES)
        .map_err(|error| format!("the sources in {} cannot be read: {error}", root.display()))?;
    // Without rt there is no kit to compare with.
    let kit = kit(rt).or_else(|| noted.as_deref().and_then(noted_kit));
    let current = || {
        let library = digest(root, &[&format!("{MADE_HERE}/{FILE}")]).ok()?;
        let kit = kit.as_deref().unwrap_or_default();
        Some(format!(
            "sources {sources:016x}\nkit {kit}\nlibrary {library:016x}\n"
        ))
    };
    let why = match (&noted, file.is_file()) {
        (_, false) => "is missing",
        (None, true) => "does not say what it was made from",
        (Some(noted), true) if current().as_ref() == Some(noted) => return Ok(None),
        (Some(_), true) => "was made from other sources or with another kit",
    };
    let was_there = file.is_file();
    make(root, rt, why)?;
    let current = current().ok_or(format!("{MADE_HERE}/{FILE} cannot be read"))?;
    fs::write(&note, current).map_err(|error| format!("{}: {error}", note.display()))?;
    Ok(was_there.then_some(why))
}

/// The kit's identity, if there is a kit.
fn kit(rt: &Path) -> Option<String> {
    let output = Command::new(rt).arg("version").output().ok()?;
    let identity = String::from_utf8(output.stdout).ok()?;
    output.status.success().then(|| identity.trim().to_owned())
}

/// The kit that is noted.
fn noted_kit(noted: &str) -> Option<String> {
    let kit = noted.lines().find_map(|line| line.strip_prefix("kit "));
    kit.map(str::to_owned)
}

/// A digest of files and folders: of each file the path, the length and the bytes, in the order of the paths. The folder `out` of
/// a crate is left out.
fn digest(root: &Path, names: &[&str]) -> io::Result<u64> {
    let mut files = Vec::new();
    let mut left: Vec<PathBuf> = names.iter().map(PathBuf::from).collect();
    while let Some(name) = left.pop() {
        let path = root.join(&name);
        if !path.is_dir() {
            files.push(name);
            continue;
        }
        for entry in fs::read_dir(path)? {
            let entry = name.join(entry?.file_name());
            if entry.components().count() != 3 || !entry.ends_with(OUT) {
                left.push(entry);
            }
        }
    }
    files.sort();
    let mut hasher = DefaultHasher::new();
    for name in files {
        let bytes = fs::read(root.join(&name))?;
        (name, bytes).hash(&mut hasher);
    }
    Ok(hasher.finish())
}

/// Where the library is to be.
#[derive(Debug, PartialEq, Eq)]
pub enum Place {
    /// In the folder that the variable names.
    Named(PathBuf),
    /// Where the repository with this root makes it.
    Made(PathBuf),
}

/// Where the library is to be, by the variable and the repository root, if there are such. An absolute name needs no
/// repository.
///
/// # Errors
/// If the package stands in no repository, and the variable names no folder by an absolute path.
pub fn place(named: Option<OsString>, root: Option<PathBuf>) -> Result<Place, String> {
    const OUTSIDE: &str = "this package does not stand at host/tilghorz of its repository";
    match (named.map(PathBuf::from), root) {
        (Some(folder), _) if folder.is_absolute() => Ok(Place::Named(folder)),
        (Some(folder), Some(root)) => Ok(Place::Named(root.join(folder))),
        (None, Some(root)) => Ok(Place::Made(root)),
        (Some(folder), None) => Err(format!(
            "{OUTSIDE}, from whose root {VARIABLE}={} would count; name the folder of {FILE} by an absolute path",
            folder.display()
        )),
        (None, None) => Err(format!(
            "{OUTSIDE}; set {VARIABLE} to the folder of {FILE}, by an absolute path"
        )),
    }
}

/// The repository root: the parent of `host/`, in which this package stands.
fn repository_root() -> Option<PathBuf> {
    let package = env::var_os("CARGO_MANIFEST_DIR").map(PathBuf::from)?;
    let root = package.ancestors().nth(2)?;
    root.join("crates.txt").is_file().then(|| root.to_owned())
}

/// Makes the library, which is not as it is to be for this reason.
fn make(root: &Path, rt: &Path, why: &str) -> Result<(), String> {
    let command = format!("{RT} {MAKE} in {CRATE}");
    let mut make = Command::new(rt);
    make.arg(MAKE)
        .current_dir(root.join(CRATE))
        .stdin(Stdio::null());
    let output = make.output().map_err(|error| {
        format!(
            "{MADE_HERE}/{FILE} {why}, and the command that makes it, {command}, cannot be run: {error}\n\
             install the Rattle kit (README.md, \"What it needs\"), or set {VARIABLE} to the folder of a library made \
             elsewhere"
        )
    })?;
    if !output.status.success() {
        return Err(format!(
            "{MADE_HERE}/{FILE} {why}, and {command} failed, {}\n{}",
            output.status,
            last_lines(&output)
        ));
    }
    let (library, here) = (root.join(CRATE).join(MADE), root.join(MADE_HERE));
    if !library.is_file() {
        return Err(format!("{command} did not make {CRATE}/{MADE}"));
    }
    let copied = fs::create_dir_all(&here).and_then(|()| fs::copy(library, here.join(FILE)));
    let fault = |error| format!("{CRATE}/{MADE} to {MADE_HERE}/{FILE}: {error}");
    copied.map(|_| ()).map_err(fault)
}

/// The last lines that a command wrote.
fn last_lines(output: &Output) -> String {
    const MOST: usize = 10;
    let written = [output.stdout.as_slice(), &output.stderr].concat();
    let written = String::from_utf8_lossy(&written);
    let lines: Vec<&str> = written.lines().collect();
    lines[lines.len().saturating_sub(MOST)..].join("\n")
}
