//! Texts in parts: by several threads, by `format --parts`, and by `split`. The result is that of one call on the whole text.

mod support;

use std::fs::{self, Permissions};
use std::io::{Read, Write};
use std::os::unix::fs::PermissionsExt;
use std::process::{Child, Command, Stdio};
use std::thread;
use std::time::Duration;

use support::{COMMAND, Folder, MESSAGE, Ran};
use tilghorz::Policy;

/// The length of the longest text.
const LONGEST: usize = 16_777_216;

/// Pieces of drawn texts: plain text, bases, keycaps, modifiers, links, flags, and runs of selectors and of tags.
const PIECES: [&str; 16] = [
    "a",
    " ",
    "\n",
    "1",
    "\u{2764}",
    "\u{1F468}",
    "\u{231A}",
    "\u{20E3}",
    "\u{1F3FB}",
    "\u{200D}",
    "\u{1F1E6}",
    "\u{1F1FF}",
    "\u{FE0E}",
    "\u{FE0F}\u{FE0F}\u{FE0E}\u{FE0F}",
    "\u{E0067}\u{E0062}\u{E0065}\u{E007F}",
    "\u{200D}\u{200D}",
];

/// A drawn text of this many pieces.
fn drawn(seed: &mut u64, pieces: usize) -> String {
    let mut next = || {
        *seed = seed
            .wrapping_mul(6_364_136_223_846_793_005)
            .wrapping_add(1_442_695_040_888_963_407);
        PIECES[(*seed >> 33) as usize % PIECES.len()]
    };
    (0..pieces).map(|_| next()).collect()
}

/// A text of about this many bytes.
fn big(length: usize) -> String {
    let text = drawn(&mut 5, 4000);
    text.repeat(length.div_ceil(text.len()))
}

/// What one call makes of a text.
fn formatted(text: &[u8]) -> Vec<u8> {
    let formatted = tilghorz::format(text, &Policy::default());
    formatted.expect("a text").into_owned()
}

/// The bytes of a folder's files, in the order of their names.
fn files(folder: &Folder, name: &str) -> Vec<Vec<u8>> {
    let mut paths: Vec<_> = fs::read_dir(folder.path(name))
        .expect("a folder")
        .map(|entry| entry.expect("an entry").path())
        .collect();
    paths.sort();
    let read = |path| fs::read(path).expect("a file");
    paths.into_iter().map(read).collect()
}

/// Splits `text` into this many parts, in the folder `parts`.
fn split(folder: &Folder, parts: usize) -> Ran {
    let _ = fs::remove_dir_all(folder.path("parts"));
    folder.run(&["split", "--parts", &parts.to_string(), "parts", "text"])
}

#[test]
fn every_number_of_parts_formats_to_the_whole() {
    let folder = Folder::new("parts-numbers");
    let (mut seed, mut begins) = (1, [0; 4]);
    for pieces in [0, 1, 30, 200, 1000] {
        let text = drawn(&mut seed, pieces);
        folder.write("text", &text);
        for number in 1..=50 {
            let ran = split(&folder, number);
            assert_eq!((ran.status, ran.err.as_str()), (0, ""));
            let parts = files(&folder, "parts");
            assert_eq!(parts.len(), number);
            assert_eq!(parts.concat(), text.as_bytes());
            let mut start = 0;
            for (part, line) in parts.iter().zip(ran.text().lines()) {
                let end = start + part.len();
                assert!(line.starts_with(&format!("{start} {end} parts/part-")));
                start = end;
            }
            let ran = folder.run(&["format", "--in-place", "--no-sync", "--quiet", "parts"]);
            assert_eq!((ran.status, ran.err.as_str()), (0, ""));
            let joined = files(&folder, "parts").concat();
            assert_eq!(joined, formatted(text.as_bytes()), "{number} {text:?}");
            count(&parts, number, &text, &mut begins);
        }
    }
    // Cuts before links, between letters of flags, and those that even parts would have in runs of selectors and of tags.
    assert!(begins.into_iter().all(|number| number > 20), "{begins:?}");
}

/// Counts the cuts before a link and between two letters of flags, and the even cuts in runs of selectors and of tags.
fn count(parts: &[Vec<u8>], number: usize, text: &str, begins: &mut [usize; 4]) {
    const LETTERS: [char; 2] = ['\u{1F1E6}', '\u{1F1FF}'];
    for pair in parts.windows(2) {
        let [before, part] = [0, 1].map(|at| str::from_utf8(&pair[at]).expect("a text"));
        begins[0] += usize::from(part.starts_with('\u{200D}'));
        begins[1] += usize::from(before.ends_with(LETTERS) && part.starts_with(LETTERS));
    }
    for part in 1..number {
        let at = (0..=text.len() * part / number)
            .rev()
            .find(|at| text.is_char_boundary(*at));
        let rest = &text[at.unwrap_or(0)..];
        begins[2] += usize::from(rest.starts_with(['\u{FE0E}', '\u{FE0F}']));
        begins[3] += usize::from(rest.starts_with(['\u{E0062}', '\u{E0065}', '\u{E007F}']));
    }
}

#[test]
fn a_text_without_a_cut_is_the_first_part() {
    let folder = Folder::new("parts-no-cut");
    let text = "\u{E0061}\u{FE0F}\u{1F3FB}\u{20E3}".repeat(100);
    folder.write("text", &text);
    for number in [1, 2, 50] {
        assert_eq!(split(&folder, number).status, 0);
        let parts = files(&folder, "parts");
        assert_eq!(
            (parts.len(), parts[0].as_slice()),
            (number, text.as_bytes())
        );
        assert!(parts[1..].iter().all(Vec::is_empty));
    }
    let tags = "\u{E0061}".repeat(LONGEST / 4 + 1);
    folder.write("text", format!("{}{tags}", "a".repeat(70_000)));
    let ran = split(&folder, 50);
    let expected = "tilghorz-host: text: no cut is allowed within 16,777,216 bytes from byte 69999 on, so no number of \
                    parts is enough\n";
    assert_eq!(
        (ran.status, ran.text(), ran.err.as_str()),
        (2, "", expected)
    );
    assert_eq!(folder.names(), ["text"]);
    // As one text it is too long, and no parts of it are texts.
    let ran = folder.run(&["format", "--parts", "text"]);
    let expected = "tilghorz-host: text: refused 1: no cut is allowed within 16,777,216 bytes from byte 69999 on\n";
    assert_eq!((ran.status, ran.err.as_str()), (2, expected));
    let all = "\u{E0061}".repeat(LONGEST / 4);
    let ran = folder.run_with(&["format", "--parts"], all.as_bytes());
    assert_eq!((ran.status, ran.err.as_str()), (0, ""));
    assert!(ran.out == formatted(all.as_bytes()));
}

#[test]
fn the_least_number_of_parts_is_told() {
    let folder = Folder::new("parts-least");
    folder.write("text", "a".repeat(LONGEST));
    assert_eq!(split(&folder, 1).status, 0);
    for (text, least) in [
        ("a".repeat(LONGEST + 1), 2),
        ("a".repeat(2 * LONGEST), 2),
        // A cut after 16,777,216 bytes would be inside a character, or before a selector.
        (
            format!(
                "{}\u{E9}{}",
                "a".repeat(LONGEST - 1),
                "a".repeat(LONGEST - 1)
            ),
            3,
        ),
        (format!("{}\u{2764}\u{FE0F}", "a".repeat(LONGEST - 3)), 2),
    ] {
        folder.write("text", &text);
        let ran = split(&folder, least - 1);
        let expected = format!(
            "tilghorz-host: text: cut into {}, a part would have more than 16,777,216 bytes\ntry: --parts {least}\n",
            least - 1
        );
        assert_eq!(
            (ran.status, ran.text(), ran.err.as_str()),
            (2, "", expected.as_str())
        );
        assert_eq!(folder.names(), ["text"]);
        assert_eq!(split(&folder, least).status, 0);
        let parts = files(&folder, "parts");
        assert!(parts.concat() == text.as_bytes());
        assert!(parts.iter().all(|part| part.len() <= LONGEST));
        fs::remove_dir_all(folder.path("parts")).expect("removed");
    }
}

#[test]
fn the_longest_part_is_as_short_as_it_can_be() {
    let folder = Folder::new("parts-even");
    folder.write("text", "a".repeat(1000));
    let lengths = |number| {
        assert_eq!(split(&folder, number).status, 0);
        Vec::from_iter(files(&folder, "parts").iter().map(Vec::len))
    };
    assert_eq!(lengths(4), [250; 4]);
    assert_eq!(lengths(3), [334, 334, 332]);
    folder.write(
        "text",
        format!("{}{}", "a".repeat(10), "\u{E0061}".repeat(5)),
    );
    assert_eq!(lengths(2), [9, 21]);
    assert_eq!(lengths(4), [9, 21, 0, 0]);
    folder.write("text", "abc");
    assert_eq!(lengths(5), [1, 1, 1, 0, 0]);
    assert_eq!(
        folder
            .run(&["split", "--parts", "12", "twelve", "text"])
            .status,
        0
    );
    assert!(folder.paths().contains(&"twelve/part-01".to_owned()));
    assert!(folder.paths().contains(&"twelve/part-12".to_owned()));
}

#[test]
fn a_split_that_fails_leaves_no_folder() {
    let folder = Folder::new("parts-fail");
    folder.write("text", MESSAGE.repeat(1000));
    folder.write("there/file", MESSAGE);
    for (arguments, message) in [
        (
            ["2", "there", "text"],
            "there: it is there already, and split makes a new folder",
        ),
        (
            ["2", "text", "text"],
            "text: it is there already, and split makes a new folder",
        ),
        (
            ["2", "parts", "missing"],
            "missing: No such file or directory",
        ),
        (
            ["2", "parts", "there"],
            "there: it is no regular file, and only those are split",
        ),
        (
            ["2", "missing/parts", "text"],
            "missing/parts: No such file or directory",
        ),
    ] {
        let ran = folder.run(&[&["split", "--parts"][..], &arguments].concat());
        assert_eq!((ran.status, ran.text()), (2, ""), "{arguments:?}");
        assert!(
            ran.err.starts_with(&format!("tilghorz-host: {message}")),
            "{}",
            ran.err
        );
    }
    // A limit on the length of files stands for a disk that is full.
    let mut shell = Command::new("sh");
    shell.args([
        "-c",
        "trap '' XFSZ; ulimit -f 1; exec \"$0\" \"$@\"",
        COMMAND,
    ]);
    shell.args(["split", "--parts", "2", "parts", "text"]);
    let ran = folder.run_command(shell, b"");
    assert_eq!((ran.status, ran.text()), (2, ""));
    assert!(
        ran.err
            .starts_with("tilghorz-host: parts/part-1: File too large"),
        "{}",
        ran.err
    );
    assert_eq!(folder.paths(), ["text", "there/file"]);
    assert_eq!(folder.names(), ["text", "there"]);
}

#[test]
fn a_split_that_is_ended_leaves_no_folder() {
    let folder = Folder::new("parts-ended");
    let file = fs::File::create(folder.path("text")).expect("a file");
    file.set_len(64 * LONGEST as u64).expect("a length");
    let mut command = Command::new(COMMAND);
    command.args(["split", "--parts", "1000", "parts", "text"]);
    command.current_dir(folder.path("")).stdout(Stdio::null());
    let mut child = command.stderr(Stdio::piped()).spawn().expect("a process");
    while folder.names().len() < 2 && child.try_wait().expect("a process").is_none() {
        thread::sleep(Duration::from_millis(1));
    }
    let kill = Command::new("kill").arg(child.id().to_string()).status();
    assert!(kill.expect("kill").success());
    let output = child.wait_with_output().expect("an end");
    assert_eq!(output.status.code(), None);
    let expected = "tilghorz-host: ended by SIGTERM, and nothing was written\n";
    assert_eq!(String::from_utf8_lossy(&output.stderr), expected);
    assert_eq!(folder.names(), ["text"]);
}

#[test]
fn parts_are_read_by_no_more_users_than_the_file() {
    let folder = Folder::new("parts-mode");
    folder.write("text", MESSAGE);
    fs::set_permissions(folder.path("text"), Permissions::from_mode(0o440)).expect("set");
    assert_eq!(split(&folder, 2).status, 0);
    let metadata = fs::metadata(folder.path("parts/part-1")).expect("a file");
    assert_eq!(metadata.permissions().mode() & 0o777 & !0o600, 0o040);
}

#[test]
fn a_big_text_is_the_same_for_every_number_of_threads() {
    let folder = Folder::new("parts-threads");
    let text = big(3 << 20);
    let expected = formatted(text.as_bytes());
    folder.write("text", &text);
    for jobs in ["1", "2", "3", "16", "1000"] {
        for options in [&["format"][..], &["format", "--parts"]] {
            let ran = folder.run(&[options, &["--jobs", jobs, "text"]].concat());
            assert_eq!((ran.status, ran.err.as_str()), (0, ""));
            assert!(ran.out == expected, "{options:?} {jobs}");
            let ran = folder.run_with(&[options, &["--jobs", jobs]].concat(), text.as_bytes());
            assert_eq!((ran.status, ran.err.as_str()), (0, ""));
            assert!(ran.out == expected, "{options:?} {jobs}");
            let ran = folder.run(&[options, &["--check", "--jobs", jobs, "text"]].concat());
            assert_eq!((ran.status, ran.text()), (1, "text\n"));
            folder.write("copy", &text);
            let ran = folder.run(&[options, &["--in-place", "--jobs", jobs, "copy"]].concat());
            assert_eq!((ran.status, ran.err.as_str()), (0, ""));
            assert!(folder.read("copy") == expected, "{options:?} {jobs}");
            let ran = folder.run(&[options, &["--check", "--jobs", jobs, "copy"]].concat());
            assert_eq!((ran.status, ran.text()), (0, ""));
        }
    }
    assert_eq!(folder.names(), ["copy", "text"]);
}

#[test]
fn a_worker_that_fails_leaves_no_result() {
    let folder = Folder::new("parts-damaged");
    let text = big(3 << 20);
    for at in [0, text.len() / 2, text.len() - 1] {
        let mut damaged = text.clone().into_bytes();
        damaged[at] = 0xC0;
        folder.write("text", &damaged);
        let whole = folder.run(&["format", "--jobs", "1", "text"]);
        assert_eq!((whole.status, whole.text()), (2, ""));
        let ran = folder.run_with(&["format", "--jobs", "2"], &damaged);
        assert_eq!((ran.status, ran.text()), (2, ""));
        assert_eq!(ran.err, whole.err.replace(" text:", " standard input:"));
        for arguments in [
            &["format", "--jobs", "2", "text"][..],
            &["format", "--jobs", "2", "--check", "text"],
            &["format", "--jobs", "5", "--in-place", "text"],
            &["format", "--parts", "--jobs", "2", "--in-place", "text"],
            &["format", "--parts", "--check", "text"],
        ] {
            let ran = folder.run(arguments);
            assert_eq!((ran.status, ran.text()), (2, ""), "{arguments:?}");
            assert_eq!(ran.err, whole.err, "{arguments:?}");
            assert!(folder.read("text") == damaged);
            assert_eq!(folder.names(), ["text"]);
        }
        // What goes through a pipe is gone. It is the beginning of the result, and the status says that there is more.
        let one = folder.run(&["format", "--parts", "--jobs", "1", "text"]);
        assert_eq!((one.status, &one.err), (2, &whole.err));
        assert!(formatted(text.as_bytes()).starts_with(&one.out));
        assert!(one.out.len() + (1 << 20) > at);
        let ran = folder.run(&["format", "--parts", "--jobs", "3", "text"]);
        assert!((ran.status, ran.out) == (2, one.out));
    }
}

/// A text over the limit is refused as one text, and formatted in parts.
#[test]
fn a_text_of_any_length_is_formatted_in_parts() {
    let folder = Folder::new("parts-long");
    let text = big(LONGEST + 1);
    folder.write("text", &text);
    for jobs in ["1", "2"] {
        let ran = folder.run(&["format", "--jobs", jobs, "text"]);
        let expected = "tilghorz-host: text: refused 1: the text is longer than 16,777,216 bytes\n";
        assert_eq!(
            (ran.status, ran.text(), ran.err.as_str()),
            (2, "", expected)
        );
    }
    // Each copy of the drawn text begins with a character that may begin a part.
    let one = drawn(&mut 5, 4000);
    assert_eq!(tilghorz::cut(text.as_bytes(), one.len()), Some(one.len()));
    let expected = formatted(one.as_bytes()).repeat(text.len() / one.len());
    let ran = folder.run(&["format", "--parts", "text"]);
    assert_eq!((ran.status, ran.err.as_str()), (0, ""));
    assert!(ran.out == expected);
    let ran = folder.run_with(&["format", "--parts", "--jobs", "2"], text.as_bytes());
    assert!((ran.status, ran.out) == (0, expected.clone()));
    let ran = folder.run(&["format", "--parts", "--in-place", "text"]);
    assert_eq!((ran.status, ran.text(), ran.err.as_str()), (0, "", ""));
    assert!(folder.read("text") == expected);
    let ran = folder.run(&["format", "--parts", "."]);
    assert_eq!(
        ran.err,
        "tilghorz-host: .: --parts takes one file, and no folder\n"
    );
}

/// A number in what the system says of a process, in KiB.
fn status(child: &Child, name: &str) -> usize {
    let status = fs::read_to_string(format!("/proc/{}/status", child.id())).unwrap_or_default();
    let line = status.lines().find_map(|line| line.strip_prefix(name));
    let number = line.and_then(|line| line.split_whitespace().next());
    number.map_or(0, |number| number.parse().expect("a number"))
}

#[test]
fn parts_are_written_as_they_are_read_and_need_little_memory() {
    let mut command = Command::new(COMMAND);
    command.args(["format", "--parts", "--jobs", "2"]);
    command.stdin(Stdio::piped()).stdout(Stdio::piped());
    let mut child = command.spawn().expect("a process");
    let mut out = child.stdout.take().expect("a pipe");
    let reader = thread::spawn(move || {
        let (mut bytes, mut length) = (vec![0; 1 << 16], 0);
        while let Ok(more @ 1..) = out.read(&mut bytes) {
            length += more;
        }
        length
    });
    let piece = big(1 << 20);
    let mut input = child.stdin.take().expect("a pipe");
    for _ in 0..100 {
        input.write_all(piece.as_bytes()).expect("written");
    }
    let most = status(&child, "VmHWM:");
    drop(input);
    assert!(child.wait().expect("an end").success());
    let length = reader.join().expect("a length");
    assert_eq!(length, 100 * formatted(piece.as_bytes()).len());
    // 100 MiB went through.
    assert!((1..50_000).contains(&most), "{most} KiB");
}

#[test]
fn no_more_threads_work_than_are_allowed() {
    let folder = Folder::new("parts-limit");
    let text = big(8 << 20);
    for name in ["a", "b", "c", "d", "e"] {
        folder.write(&format!("texts/{name}"), &text);
    }
    for jobs in [1, 2, 3] {
        let mut command = Command::new(COMMAND);
        command.args([
            "format",
            "--check",
            "--quiet",
            "--jobs",
            &jobs.to_string(),
            "texts",
        ]);
        command.current_dir(folder.path("")).stdout(Stdio::null());
        let mut child = command.spawn().expect("a process");
        let mut most = 0;
        while child.try_wait().expect("a process").is_none() {
            most = most.max(status(&child, "Threads:"));
        }
        // A thread that has no file left may not have ended when another is started in its place.
        assert!(most < 2 * jobs, "{most} of {jobs}");
    }
}
