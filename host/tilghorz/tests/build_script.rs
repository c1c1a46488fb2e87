//! Where the build script looks for the proved library, and when it has it made.

#[allow(dead_code, reason = "the test takes a part of it")]
#[path = "../build.rs"]
mod build_script;

use std::fs::{self, Permissions};
use std::os::unix::fs::PermissionsExt;
use std::path::{Path, PathBuf};

use build_script::{Place, VARIABLE, bring_up_to_date, place, put};

/// Where the library is to be, by the variable and the root.
fn placed(named: Option<&str>, root: Option<&str>) -> Result<Place, String> {
    place(named.map(Into::into), root.map(PathBuf::from))
}

#[test]
fn an_absolute_folder_needs_no_repository() {
    let named = Ok(Place::Named("/lib".into()));
    assert_eq!(placed(Some("/lib"), None), named);
    assert_eq!(placed(Some("/lib"), Some("/repository")), named);
}

#[test]
fn a_relative_folder_counts_from_the_repository() {
    let named = Ok(Place::Named("/repository/lib".into()));
    assert_eq!(placed(Some("lib"), Some("/repository")), named);
    let fault = placed(Some("lib"), None).expect_err("a fault");
    assert!(fault.contains(&format!("{VARIABLE}=lib")), "{fault}");
    assert!(fault.contains("absolute"), "{fault}");
}

#[test]
fn without_the_variable_the_repository_makes_it() {
    let made = Ok(Place::Made("/repository".into()));
    assert_eq!(placed(None, Some("/repository")), made);
    let fault = placed(None, None).expect_err("a fault");
    assert!(fault.contains(&format!("set {VARIABLE}")), "{fault}");
}

/// A repository, with a program in the place of rt. Each library that it makes is another one.
struct Repository(PathBuf);

impl Repository {
    fn new(name: &str) -> Self {
        let root = Path::new(env!("CARGO_TARGET_TMPDIR")).join(name);
        let _ = fs::remove_dir_all(&root);
        let new = Self(root);
        new.write("crates.txt", "a\n");
        new.write("crates/a/src/lib.rt", "one\n");
        new.write("crates/tilghorz_c/src/lib.rt", "one\n");
        new.write("KIT-ID", "kit 1\n");
        let lines = "#!/bin/sh
[ \"$1\" != version ] || exec cat \"$(dirname \"$0\")/KIT-ID\"
[ \"$* $(basename \"$PWD\")\" = 'lib tilghorz_c' ] || exit 2
[ ! -e ../../fails ] || { echo why; exit 1; }
mkdir -p out
echo >> ../../made
cat ../../made > out/libtilghorz_c.a
";
        new.write("rt", lines);
        fs::set_permissions(new.0.join("rt"), Permissions::from_mode(0o755)).expect("set");
        new
    }

    fn write(&self, name: &str, text: &str) {
        let path = self.0.join(name);
        fs::create_dir_all(path.parent().expect("a folder")).expect("a folder");
        fs::write(path, text).expect("written");
    }

    /// Brings the library up to date by a command. How often it has been made, or the fault.
    fn made_by(&self, rt: &str) -> Result<usize, String> {
        bring_up_to_date(&self.0, &self.0.join(rt))?;
        Ok(fs::read(self.0.join("made")).expect("a file").len())
    }

    fn made(&self) -> usize {
        self.made_by("rt").expect("a library")
    }
}

impl Drop for Repository {
    /// Removes it: rt takes each file of Rattle in this repository that no crate has for one that was forgotten.
    fn drop(&mut self) {
        let _ = fs::remove_dir_all(&self.0);
    }
}

#[test]
fn a_library_from_other_sources_is_made_anew() {
    let repository = Repository::new("made_anew");
    assert_eq!((repository.made(), repository.made()), (1, 1));
    // The same text at another time is the same source.
    repository.write("crates/a/src/lib.rt", "one\n");
    assert_eq!(repository.made(), 1);
    repository.write("crates/a/src/lib.rt", "two\n");
    assert_eq!((repository.made(), repository.made()), (2, 2));
    repository.write("crates/a/specs/New.antt", "");
    assert_eq!((repository.made(), repository.made()), (3, 3));
    // What rt makes of a crate is no source.
    repository.write("crates/a/out/rlib/new", "");
    assert_eq!(repository.made(), 3);
    let moved = fs::rename(
        repository.0.join("crates/a/specs/New.antt"),
        repository.0.join("crates/a/specs/Other.antt"),
    );
    moved.expect("moved");
    assert_eq!((repository.made(), repository.made()), (4, 4));
    repository.write("crates.txt", "a b\n");
    assert_eq!((repository.made(), repository.made()), (5, 5));
    repository.write("KIT-ID", "kit 2\n");
    assert_eq!((repository.made(), repository.made()), (6, 6));
    // A library that somebody else put there.
    repository.write("target/staticlib/libtilghorz.a", "old");
    assert_eq!((repository.made(), repository.made()), (7, 7));
    fs::remove_file(
        repository
            .0
            .join("target/staticlib/libtilghorz.a.made-from"),
    )
    .expect("gone");
    assert_eq!((repository.made(), repository.made()), (8, 8));
}

#[test]
fn a_stale_library_is_not_linked() {
    let repository = Repository::new("stale");
    let fault = repository.made_by("missing").expect_err("a fault");
    assert!(fault.contains("libtilghorz.a is missing, and "), "{fault}");
    assert_eq!(repository.made(), 1);
    assert_eq!(repository.made_by("missing"), Ok(1));
    repository.write("crates/a/src/lib.rt", "two\n");
    let fault = repository.made_by("missing").expect_err("a fault");
    assert!(
        fault.contains("was made from other sources or with another kit, and the command"),
        "{fault}"
    );
    repository.write("fails", "");
    for _ in 0..2 {
        let fault = repository.made_by("rt").expect_err("a fault");
        assert!(fault.contains("failed"), "{fault}");
        assert!(fault.ends_with("\nwhy"), "{fault}");
    }
}

/// What is linked is cargo's own copy.
#[test]
fn the_library_is_put_into_another_folder() {
    let repository = Repository::new("put");
    let own = repository.0.join("own");
    let fault = put(&repository.0.join("target/staticlib"), &own).expect_err("a fault");
    assert!(fault.contains("libtilghorz.a"), "{fault}");
    repository.write("own/other", "");
    for _ in 0..2 {
        assert_eq!(repository.made(), 1);
        put(&repository.0.join("target/staticlib"), &own).expect("put");
        let copy = fs::read_to_string(own.join("libtilghorz.a")).expect("a copy");
        assert_eq!(copy, "\n");
    }
    fs::remove_dir_all(repository.0.join("target")).expect("gone");
    assert!(own.join("libtilghorz.a").is_file());
    // The one that this test was linked with.
    let linked = Path::new(env!("TILGHORZ_FOLDER"));
    assert!(linked.join("libtilghorz.a").is_file() && linked.ends_with("out"));
}
