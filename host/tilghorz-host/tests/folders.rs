//! Folders as they are: archives among texts, ignored files, links, files that nobody may read, and several files at once.

mod support;

use std::fs::{self, Permissions};
use std::os::unix::fs::{PermissionsExt, symlink};
use std::process::Command;
use std::time::{Duration, SystemTime};

use support::{FORMATTED, Folder, MESSAGE};

/// The head of a tar archive with a message in it: text with bytes 00, and all of it well-formed.
fn archive() -> Vec<u8> {
    let mut bytes = b"message.txt".to_vec();
    bytes.resize(512, 0);
    bytes.extend(MESSAGE.as_bytes());
    bytes.resize(1024, 0);
    bytes
}

#[test]
fn binary_files_in_a_folder_are_passed_over() {
    let folder = Folder::new("binary");
    folder.write("texts/a.txt", MESSAGE);
    folder.write("texts/b.tar", archive());
    // The byte 00 may stand far from the beginning, in what else would be refused.
    let late = [vec![b'a'; 200_000], MESSAGE.into(), vec![0xFF, 0]].concat();
    folder.write("texts/c.bin", &late);
    let ran = folder.run(&["format", "--check", "texts"]);
    assert_eq!((ran.status, ran.text()), (1, "texts/a.txt\n"));
    let ran = folder.run(&["format", "--in-place", "texts"]);
    assert_eq!((ran.status, ran.text()), (0, ""));
    assert_eq!(
        ran.err,
        "tilghorz-host: 3 files: 1 changed, 0 unchanged, 2 binary\n"
    );
    assert_eq!(folder.read("texts/b.tar"), archive());
    assert_eq!(folder.read("texts/c.bin"), late);
    for command in ["report", "show"] {
        let ran = folder.run(&[command, "--verbose", "texts"]);
        assert_eq!(ran.status, 0);
        let expected = "tilghorz-host: texts/b.tar: passed over: it is binary, with a byte 00
tilghorz-host: texts/c.bin: passed over: it is binary, with a byte 00
tilghorz-host: 3 files: 0 with findings, 1 without, 2 binary
";
        assert_eq!(ran.err, expected);
    }
}

#[test]
fn a_binary_file_is_formatted_when_it_is_asked_for() {
    for (name, arguments) in [
        ("named", &["format", "--in-place", "texts/b.tar"][..]),
        ("option", &["format", "--in-place", "--binary", "texts"]),
        ("both", &["format", "--in-place", "texts", "texts/b.tar"]),
    ] {
        let folder = Folder::new(&format!("binary_{name}"));
        folder.write("texts/b.tar", archive());
        let ran = folder.run(arguments);
        assert_eq!(ran.status, 0, "{}", ran.err);
        assert_eq!(folder.read("texts/b.tar").len(), archive().len());
        assert!(folder.read("texts/b.tar") != archive(), "{name}");
    }
}

#[test]
fn patterns_choose_the_files_of_a_folder() {
    let folder = Folder::new("patterns");
    for name in [
        "t/a.txt",
        "t/a.md",
        "t/out/b.txt",
        "t/deep/out/c.txt",
        "t/deep/d.txt",
        "t/deep/notes/e.md",
    ] {
        folder.write(name, MESSAGE);
    }
    let check = |options: &[&str]| {
        let ran = folder.run(&[&["format", "--check"], options, &["t"]].concat());
        (ran.text().lines().collect::<Vec<_>>().join(" "), ran.err)
    };
    let (names, said) = check(&["--include", "*.txt", "--exclude", "out/"]);
    assert_eq!(names, "t/a.txt t/deep/d.txt");
    assert_eq!(
        said,
        "tilghorz-host: 2 files: 2 would change, 0 would not; passed over: 2 excluded, 2 not included\n"
    );
    let (names, _) = check(&["--exclude", "/out", "--exclude=*.md"]);
    assert_eq!(names, "t/a.txt t/deep/d.txt t/deep/out/c.txt");
    let (names, _) = check(&["--include", "deep/**/*.md", "--include", "/out/"]);
    assert_eq!(names, "t/deep/notes/e.md t/out/b.txt");
    let (names, said) = check(&["--verbose", "--include", "[!b]*.txt", "--exclude", "deep"]);
    assert_eq!(names, "t/a.txt");
    let expected = "tilghorz-host: t/a.md: passed over: no --include matches it
tilghorz-host: t/deep: passed over: --exclude deep matches it
tilghorz-host: t/out/b.txt: passed over: no --include matches it
tilghorz-host: 1 file: 1 would change, 0 would not; passed over: 1 excluded, 2 not included
";
    assert_eq!(said, expected);
    // What is named itself is taken.
    let ran = folder.run(&["format", "--check", "--exclude", "*", "t/a.txt"]);
    assert_eq!((ran.status, ran.text()), (1, "t/a.txt\n"));
}

#[test]
fn ignored_files_in_a_folder_are_passed_over() {
    let folder = Folder::new("ignored");
    folder.write(".git/HEAD", "");
    folder.write(".gitignore", "/w/generated\n*.log\n");
    folder.write(
        "w/.gitignore",
        "# built\nbuild/\n/top.txt\n*.tmp\n!keep.tmp\n",
    );
    folder.write("w/sub/.gitignore", "!shown.log\nonly.txt\n");
    let taken = ["w/a.txt", "w/keep.tmp", "w/sub/shown.log", "w/sub/top.txt"];
    let ignored = [
        "w/build/b.txt",
        "w/generated",
        "w/only.log",
        "w/sub/build/c.txt",
        "w/sub/only.txt",
        "w/top.txt",
        "w/x.tmp",
    ];
    for name in taken.iter().chain(&ignored) {
        folder.write(name, MESSAGE);
    }
    let ran = folder.run(&["format", "--check", "w"]);
    assert_eq!(ran.text().lines().collect::<Vec<_>>(), taken);
    assert_eq!(
        ran.err,
        "tilghorz-host: 4 files: 4 would change, 0 would not; passed over: 2 hidden, 7 ignored\n"
    );
    let ran = folder.run(&["format", "--check", "--no-ignore", "--quiet", "w"]);
    assert_eq!((ran.text().lines().count(), ran.err.as_str()), (11, ""));
    let ran = folder.run(&["format", "--check", "--verbose", "w/sub"]);
    assert_eq!(ran.text(), "w/sub/shown.log\nw/sub/top.txt\n");
    let above = folder.path("w/.gitignore");
    let above = fs::canonicalize(above).expect("a path");
    let expected = format!(
        "tilghorz-host: w/sub/.gitignore: passed over: its name begins with a full stop
tilghorz-host: w/sub/build: passed over: {} ignores it
tilghorz-host: w/sub/only.txt: passed over: w/sub/.gitignore ignores it
tilghorz-host: 2 files: 2 would change, 0 would not; passed over: 1 hidden, 2 ignored
",
        above.display()
    );
    assert_eq!(ran.err, expected);
    // A file that is named itself is taken.
    let ran = folder.run(&["format", "--check", "w/x.tmp"]);
    assert_eq!(ran.text(), "w/x.tmp\n");
}

/// git itself says which files it ignores, where it is installed.
#[test]
fn ignored_files_are_those_of_git() {
    let folder = Folder::new("as_git");
    let git = |arguments: &[&str]| {
        let mut git = Command::new("git");
        git.args(["-c", "core.excludesFile=/dev/null"]);
        git.args(arguments).current_dir(folder.path(""));
        git.output()
            .ok()
            .filter(|output| output.status.success())
            .map(|output| String::from_utf8(output.stdout).expect("a text"))
    };
    let lines = "*.o\n/a\nb/\nc/d\n**/e\nf/**\ng/**/h\n!keep.o\ni[0-9]\nj?k\n\\!l\nm \nn\\ \n[[:upper:]]x\n*q*r\no/*\n!o/p\n";
    folder.write(".gitignore", lines);
    folder.write("s/.gitignore", "!x.o\n/y\nz/\n");
    for name in [
        "x.o", "keep.o", "a", "s/a", "b/x", "s/b", "c/d", "s/c/d", "e", "s/e", "f/x/y", "s/f/x",
        "g/h", "g/x/y/h", "i5", "ix", "jxk", "j/k", "!l", "m", "m ", "n ", "n", "Ax", "ax", "aqbr",
        "q/r", "o/x", "o/p", "o/q/p", "s/x.o", "s/y", "s/t/y", "s/z/x", "s/t/z/y", "s/t/z.o",
    ] {
        if !folder.path(name).is_dir() {
            folder.write(name, MESSAGE);
        }
    }
    if git(&["init", "--quiet"]).is_none() {
        return;
    }
    let listed = git(&[
        "-c",
        "core.quotePath=false",
        "ls-files",
        "--others",
        "--exclude-standard",
        "-z",
    ]);
    let mut expected: Vec<String> = listed
        .expect("a list")
        .split_terminator('\0')
        .filter(|name| !name.ends_with(".gitignore"))
        .map(|name| format!("./{name}"))
        .collect();
    let ran = folder.run(&["format", "--check", "."]);
    let mut found: Vec<String> = ran.text().lines().map(str::to_owned).collect();
    expected.sort();
    found.sort();
    assert_eq!(found, expected);
    assert!(found.len() > 10);
}

#[test]
fn what_cannot_be_ignored_rightly_is_left() {
    let folder = Folder::new("bad_ignore");
    folder.write("t/a/b.txt", MESSAGE);
    folder.write("t/c.txt", MESSAGE);
    fs::create_dir(folder.path("t/a/.gitignore")).expect("a folder");
    symlink("/dev/null", folder.path("t/.gitignore")).expect("a link");
    let ran = folder.run(&["format", "--check", "t"]);
    assert_eq!((ran.status, ran.text()), (1, "t/a/b.txt\nt/c.txt\n"));
    // The files of a folder whose rules cannot be read are not touched.
    folder.write("t/d/.gitignore", "*.txt\n");
    folder.write("t/d/e.txt", MESSAGE);
    let allowed = Permissions::from_mode(0o000);
    fs::set_permissions(folder.path("t/d/.gitignore"), allowed).expect("set");
    let Some(mut command) = folder.as_nobody() else {
        return;
    };
    command.args(["format", "--in-place", "t"]);
    let ran = folder.run_command(command, b"");
    let expected = "tilghorz-host: t/d/.gitignore: Permission denied (os error 13), so its folder was passed over
tilghorz-host: 2 files: 2 changed, 0 unchanged; passed over: 2 hidden; 1 folder not read
";
    assert_eq!((ran.status, ran.err.as_str()), (2, expected));
    assert_eq!(folder.read("t/d/e.txt"), MESSAGE.as_bytes());
}

/// Texts of all kinds in some folders.
fn mixed(folder: &Folder) {
    for number in 0..300 {
        let name = format!("t/{}/{number:03}", number % 7);
        match number % 5 {
            0 => folder.write(&name, FORMATTED),
            1 => folder.write(&name, b"\xFF"),
            2 => folder.write(&name, archive()),
            _ => folder.write(&name, MESSAGE.repeat(1 + number)),
        }
    }
}

#[test]
fn the_output_is_the_same_for_any_number_of_threads() {
    let folder = Folder::new("threads");
    mixed(&folder);
    for arguments in [
        &["format", "--check", "--verbose", "t"][..],
        &["report", "--verbose", "t"],
        &["report", "--json", "t"],
        &["show", "t/3", "t/1", "missing", "t/6"],
    ] {
        let run = |jobs| folder.run(&[arguments, &["--jobs", jobs]].concat());
        let one = run("1");
        assert_eq!(one.status, 2);
        for jobs in ["2", "16", "18446744073709551615"] {
            let ran = run(jobs);
            assert!(ran.out == one.out && ran.err == one.err, "{arguments:?}");
            assert_eq!(ran.status, 2);
        }
    }
    let paths = folder.run(&["format", "--check", "--quiet", "t"]);
    assert!(paths.text().lines().is_sorted());
    assert_eq!(paths.text().lines().count(), 120);
    let ran = folder.run(&["format", "--in-place", "--jobs=8", "t"]);
    assert_eq!(
        ran.err.lines().last(),
        Some("tilghorz-host: 300 files: 120 changed, 60 unchanged, 60 refused, 60 binary")
    );
    assert_eq!(ran.err.lines().count(), 61);
    let paths = folder.run(&["format", "--check", "--quiet", "t"]);
    assert_eq!((paths.status, paths.text()), (2, ""));
}

#[test]
fn a_file_that_is_named_twice_is_changed_once() {
    let folder = Folder::new("twice");
    folder.write("t/a", MESSAGE);
    folder.write("t/b", MESSAGE);
    symlink("t/a", folder.path("link")).expect("a link");
    let names = ["t/a", "t/../t/a", "link", "t", "./t", "t/b"];
    let ran = folder.run(&[&["format", "--in-place"], &names[..]].concat());
    assert_eq!(
        (ran.status, ran.err.as_str()),
        (0, "tilghorz-host: 2 files: 2 changed, 0 unchanged\n")
    );
}

#[test]
fn another_hard_link_is_changed_by_itself() {
    let folder = Folder::new("hard");
    folder.write("t/a", MESSAGE);
    fs::hard_link(folder.path("t/a"), folder.path("t/b")).expect("a link");
    fs::hard_link(folder.path("t/a"), folder.path("outside")).expect("a link");
    let ran = folder.run(&["format", "--in-place", "t"]);
    assert_eq!(
        (ran.status, ran.err.as_str()),
        (0, "tilghorz-host: 2 files: 2 changed, 0 unchanged\n")
    );
    assert_eq!(folder.read("t/b"), FORMATTED.as_bytes());
    assert_eq!(folder.read("outside"), MESSAGE.as_bytes());
}

/// Each batch is committed before the next, also where one is full by its bytes.
#[test]
fn files_without_a_sync_and_in_several_batches() {
    let folder = Folder::new("batches");
    let long = MESSAGE.repeat(1_500_000);
    for number in 0..12 {
        folder.write(&format!("t/{number:02}"), &long);
    }
    for number in 12..1100 {
        folder.write(&format!("t/{number:04}"), MESSAGE);
    }
    let ran = folder.run(&["format", "--in-place", "--no-sync", "--jobs", "1", "t"]);
    assert_eq!(
        (ran.status, ran.err.as_str()),
        (0, "tilghorz-host: 1100 files: 1100 changed, 0 unchanged\n")
    );
    assert_eq!(folder.paths().len(), 1100);
    assert!(folder.read("t/07") == FORMATTED.repeat(1_500_000).as_bytes());
}

#[test]
fn what_a_killed_command_has_left_is_removed() {
    let folder = Folder::new("left_over");
    // No process has a number as great as the first.
    let (ended, alive) = (999_999_999, std::process::id());
    folder.write(&format!("t/.tilghorz-{ended}-0.tmp"), MESSAGE);
    folder.write(&format!("t/u/.tilghorz-{ended}-17.tmp"), MESSAGE);
    let mut kept = [
        format!("t/.tilghorz-{alive}-0.tmp"),
        format!("t/.tilghorz-{ended}-0"),
        format!("t/.tilghorz-{ended}-x.tmp"),
    ];
    kept.sort();
    kept.iter().for_each(|name| folder.write(name, MESSAGE));
    let ran = folder.run(&["format", "--check", "t"]);
    assert_eq!((ran.status, folder.paths().len()), (0, 5));
    let ran = folder.run(&["format", "--in-place", "--verbose", "t"]);
    assert_eq!(ran.status, 0);
    assert_eq!(folder.paths(), kept);
    let removed = format!(
        "tilghorz-host: t/u/.tilghorz-{ended}-17.tmp: removed: an earlier run of this command left it\n"
    );
    assert!(ran.err.contains(&removed), "{}", ran.err);
    assert!(
        ran.err
            .ends_with("; passed over: 3 hidden; 2 left-over temporary files removed\n"),
        "{}",
        ran.err
    );
}

/// Makes a folder of every kind of entry, and gives what the summary must say of it.
fn every_kind(folder: &Folder, files: usize) -> String {
    let mut counts = [0; 9];
    for number in 0..files {
        let name = format!("t/{}/{}/{number}", number % 10, number / 10 % 10);
        let kind = match number % 100 {
            0..20 => 0,
            20..60 => 1,
            60..70 => 2,
            70..85 => 3,
            85..88 => 4,
            88..90 => 5,
            90..95 => 6,
            95..98 => 7,
            _ => 8,
        };
        counts[kind] += 1;
        let allow = |mode| {
            let path = folder.path(&name);
            fs::set_permissions(path, Permissions::from_mode(mode)).expect("set");
        };
        match kind {
            0 => folder.write(&name, MESSAGE),
            1 => folder.write(&name, FORMATTED),
            2 => folder.write(&name, [MESSAGE.as_bytes(), b"\xE2\x9D"].concat()),
            3 => folder.write(&name, archive()),
            4 => {
                folder.write(&name, MESSAGE);
                allow(0o000);
            }
            5 => {
                folder.write(&name, MESSAGE);
                allow(0o444);
            }
            6 => {
                folder.write(&format!("t/{}/{}/.keep", number % 10, number / 10 % 10), "");
                symlink("../0", folder.path(&name)).expect("a link");
            }
            7 => folder.write(&format!("{name}.ignored"), MESSAGE),
            _ => folder.write(&format!("t/{}/.{number}", number % 10), MESSAGE),
        }
    }
    folder.write("t/.gitignore", "*.ignored\n");
    let keeps = folder.paths();
    let keeps = keeps.iter().filter(|path| path.ends_with(".keep")).count();
    let [
        changed,
        unchanged,
        refused,
        binary,
        unreadable,
        read_only,
        links,
        ignored,
        hidden,
    ] = counts;
    let failed = unreadable + read_only;
    let taken = files - links - ignored - hidden;
    assert_eq!(taken, changed + unchanged + refused + binary + failed);
    format!(
        "tilghorz-host: {taken} files: {changed} changed, {unchanged} unchanged, {refused} refused, {failed} failed, \
         {binary} binary; passed over: {} hidden, {links} symbolic links, {ignored} ignored",
        hidden + keeps + 1
    )
}

/// Goes through a folder of every kind of entry: the summary adds up, and each file is as it is to be.
fn go_through_every_kind(name: &str, files: usize) {
    let folder = Folder::new(name);
    let expected = every_kind(&folder, files);
    let before = folder.paths();
    let Some(mut command) = folder.as_nobody() else {
        println!("passed over: nobody cannot reach this folder");
        return;
    };
    command.args(["format", "--in-place", "t"]);
    let ran = folder.run_command(command, b"");
    assert_eq!(ran.status, 2);
    assert_eq!(ran.err.lines().last(), Some(expected.as_str()));
    assert_eq!(folder.paths(), before);
    for number in 0..files {
        let path = folder.path(&format!("t/{}/{}/{number}", number % 10, number / 10 % 10));
        let expected = match number % 100 {
            0..60 => FORMATTED.as_bytes(),
            70..85 => &archive(),
            _ => continue,
        };
        assert!(fs::read(path).expect("a file") == expected, "{number}");
    }
}

#[test]
fn a_folder_of_every_kind_is_gone_through() {
    go_through_every_kind("every_kind", 2_000);
}

/// The same with 50,000 files, which takes too long for each run: `cargo test -- --ignored`.
#[test]
#[ignore = "it writes 50,000 files"]
fn a_folder_of_fifty_thousand_files_is_gone_through() {
    let begun = SystemTime::now();
    go_through_every_kind("fifty_thousand", 50_000);
    let seconds = begun.elapsed().unwrap_or(Duration::ZERO);
    println!("{} s", seconds.as_secs());
}
