//! The page of HTML. support/page.py reads it without a browser; browser/check.py opens pages in one.

mod support;

use std::ffi::OsStr;
use std::fs;
use std::os::unix::ffi::OsStrExt;
use std::os::unix::fs::PermissionsExt;
use std::path::Path;
use std::process::Command;

use support::{FORMATTED, Folder, MESSAGE, Ran};

/// Document 01's worked texts.
const WORKED: [&str; 14] = [
    "",
    "1\u{FE0E}",
    "1\u{20E3}",
    "\u{231A}\u{FE0F}",
    "\u{231A}\u{FE0E}\u{FE0F}",
    "\u{231A}\u{FE0F}\u{FE0E}",
    "\u{261D}\u{FE0F}\u{1F3FB}",
    "\u{261D}\u{FE0E}\u{1F3FB}",
    "\u{2764}\u{FE0F}\u{1F3FB}",
    "\u{2764}\u{FE0E}\u{E0061}",
    "\u{1F1E6}\u{FE0F}\u{1F1E7}",
    "\u{231A}\u{200D}\u{200D}\u{231A}",
    "a\u{FE0F}",
    "\u{20E3}",
];

/// What `support/page.py` says of a page of texts.
fn compared(folder: &Folder, page: &str, texts: &str) -> Ran {
    let report = folder.run(&["report", "--json", "--quiet", texts]);
    let copy = Command::new("cp")
        .args(["-r", texts, "formatted/"])
        .current_dir(folder.path(""))
        .status();
    assert!(copy.expect("cp").success());
    let formatted = format!("formatted/{texts}");
    folder.run(&["format", "--in-place", "--no-sync", "--quiet", &formatted]);
    let mut python = Command::new("python3");
    let script = Path::new(env!("CARGO_MANIFEST_DIR")).join("tests/support/page.py");
    python.arg(script).args([page, "formatted"]);
    folder.run_command(python, &report.out)
}

/// A folder with texts in `texts/`, and the page of them.
fn filled(name: &str, texts: &[(&[u8], &str)]) -> Folder {
    let folder = Folder::new(name);
    fs::create_dir(folder.path("texts")).expect("a folder");
    fs::create_dir(folder.path("formatted")).expect("a folder");
    for (name, text) in texts {
        let path = folder.path("texts").join(OsStr::from_bytes(name));
        fs::write(path, text).expect("written");
    }
    let ran = folder.run(&["page", "texts", "-qo", "page.html"]);
    assert_eq!((ran.status, ran.text(), ran.err.as_str()), (0, "", ""));
    folder
}

/// The page, as a text.
fn page(folder: &Folder) -> String {
    String::from_utf8(folder.read("page.html")).expect("a text")
}

#[test]
fn the_worked_texts_are_read_back() {
    let names: Vec<String> = (1..=WORKED.len())
        .map(|number| format!("{number:02}"))
        .collect();
    let texts = names.iter().map(|name| name.as_bytes()).zip(WORKED);
    let folder = filled("page-worked", &texts.collect::<Vec<_>>());
    let ran = compared(&folder, "page.html", "texts");
    assert_eq!(ran.text(), "14 messages, 10 findings\n", "{}", ran.err);
    let page = page(&folder);
    for part in [
        // 31 20E3, a decision.
        "<p>Becomes <bdi><b data-c=\"0031 FE0E 20E3\">1&#xFE0E;&#x20E3;</b></bdi> <code>0031 FE0E 20E3</code>",
        "<li>Choice 1: as text <bdi>",
        "</bdi> <code>0031 FE0E 20E3</code> (what the policy chooses); or as emoji <bdi>",
        "</bdi> <code>0031 FE0F 20E3</code></ul>",
        // 231A FE0F FE0E.
        "<p><strong>1 unsanctioned</strong>: a selector where none may stand is removed",
        "<p><strong>1 policy-redundant</strong>: ",
        "line 1, column 1; bytes 0 to 9; characters 0 to 3; UTF-16 units 0 to 3; <code>231A FE0F FE0E</code>",
        "<p>Becomes nothing",
    ] {
        assert!(page.contains(part), "{part}");
    }
}

#[test]
fn hostile_names_and_texts_do_no_harm() {
    let long = format!(
        "{}\u{2764}{}1\u{FE0E}{}\u{2764}",
        "a".repeat(5000),
        "\u{1F600}".repeat(300),
        "\u{E0061}".repeat(100)
    );
    let texts: [(&[u8], &str); 8] = [
        (
            b"<script>alert(1)",
            "<img src=x onerror=alert(1)>\u{2764}</td><script>alert(2)</script>",
        ),
        (
            b"\"quoted' &amp;",
            "\u{202E}turned \u{2764} \u{2067}1\u{FE0E}\u{2069} \u{5E9}\u{5DC} \u{2764}",
        ),
        (
            "txt.\u{202E}gnp".as_bytes(),
            "bell \x07 \x1B[2J \u{9B}31m in \r it \u{85}\u{2764}\r\n&#x202E; \u{2764}",
        ),
        (
            b"line\nfeed\x1B[31m",
            "\u{FE0F}\u{FE0E} \u{200D}\u{200D} \u{2764}\u{200D}\u{2764}\u{200D}\u{2764}",
        ),
        (b"not \xFF UTF-8", &long),
        (
            "\u{5E9}\u{5DC}\u{5D5}\u{5DD}".as_bytes(),
            "e\u{301}\u{2764}\u{FDD0}\u{FFFF}\u{FEFF}\u{2028}\u{2029}",
        ),
        (
            "\u{2764}\u{FE0F}\u{200B}".as_bytes(),
            "\t\u{2764}\t1\u{FE0E}\n\n\n\u{A9}",
        ),
        (b"http:%2F%2Fexample", "a\n\nb\n"),
    ];
    let folder = filled("page-hostile", &texts);
    let ran = compared(&folder, "page.html", "texts");
    assert_eq!(ran.text(), "8 messages, 15 findings\n", "{}", ran.err);
    let page = page(&folder);
    let is_raw = |character: &char| {
        character.is_control() && *character != '\n' && *character != '\t'
            || ('\u{FE00}'..='\u{FE0F}').contains(character)
            || "\u{200B}\u{200D}\u{202E}\u{2067}\u{2069}\u{FEFF}\u{2028}\u{2029}\u{E0061}"
                .contains(*character)
    };
    assert_eq!(page.chars().find(is_raw), None);
    assert!(!page.contains("<script") && !page.contains("<img") && !page.contains("://"));
}

/// What is wrong with a page is found.
#[test]
fn the_reading_finds_planted_faults() {
    let folder = filled("page-faults", &[(b"a", MESSAGE), (b"b", "x \u{2764}\n")]);
    let page = page(&folder);
    assert_eq!(
        compared(&folder, "page.html", "texts").text(),
        "2 messages, 3 findings\n"
    );
    for (old, new) in [
        ("<h2>Totals", "<img src=x><h2>Totals"),
        ("default-src 'none'", "default-src 'self'"),
        ("href=#m1>", "href=http://example>"),
        ("href=#m1>", "href=#m7>"),
        ("id=m2>", "id=m1>"),
        ("data-u=0>x", "data-u=1>x"),
        ("data-bytes=\"0 4\"", "data-bytes=\"0 5\""),
        ("data-utf16=\"0 2\"", "data-utf16=\"0 1\""),
        ("href=#m2f1>\u{2764}</a>", "href=#m2f1>\u{2763}</a>"),
        ("<td class=a><bdi>x", "<td class=a><bdi>y"),
        (
            "<h2 id=messages",
            "<section class=m></section><h2 id=messages",
        ),
    ] {
        assert!(page.contains(old), "{old}");
        folder.write("faulty.html", page.replacen(old, new, 1));
        let ran = compared(&folder, "faulty.html", "texts");
        assert_eq!((ran.status, ran.text()), (1, ""), "{new}");
    }
}

#[test]
fn the_same_texts_give_the_same_page() {
    let texts: Vec<(String, String)> = (0..300)
        .map(|number| {
            let plain = "plain\n".repeat(number % 7);
            (
                format!("{number:03}"),
                format!("{plain}{MESSAGE} {number}\n{plain}"),
            )
        })
        .collect();
    let texts = texts
        .iter()
        .map(|(name, text)| (name.as_bytes(), text.as_str()));
    let folder = filled("page-same", &texts.collect::<Vec<_>>());
    let page = folder.read("page.html");
    for jobs in ["1", "2", "7"] {
        let ran = folder.run(&["page", "-q", "-j", jobs, "--output", "page.html", "texts"]);
        assert_eq!(
            (ran.status, folder.read("page.html") == page),
            (0, true),
            "{jobs}"
        );
        let ran = folder.run(&["page", "-q", "-j", jobs, "--output", "-", "texts"]);
        assert_eq!((ran.status, ran.out == page), (0, true), "{jobs}");
    }
    // A page in the folder is none of the texts.
    for _ in 0..2 {
        let ran = folder.run(&["page", "-q", "-o", "texts/page.html", "texts"]);
        assert_eq!(
            (ran.status, folder.read("texts/page.html") == page),
            (0, true)
        );
    }
    assert_eq!(folder.names(), ["formatted", "page.html", "texts"]);
}

#[test]
fn refused_texts_come_first() {
    let folder = Folder::new("page-refused");
    folder.write("texts/a", format!("{MESSAGE}\n"));
    folder.write("texts/b", b"good\nnot <b>\xE2\x9D</b> so good\n");
    folder.write("texts/c", "plain");
    let ran = folder.run(&["page", "-o", "page.html", "texts", "missing"]);
    assert_eq!(ran.status, 2);
    assert!(
        ran.err
            .ends_with("4 files: 1 with findings, 1 without, 1 refused, 1 failed\n"),
        "{}",
        ran.err
    );
    let page = page(&folder);
    let damage = "<li id=m2><bdi>texts/b</bdi>: refused 3: not well-formed UTF-8 at byte 12\
                  <p>Line 2, column 8, byte 12: <code>67 6F 6F 64 0A 6E 6F 74 20 3C 62 3E <mark>[E2 9D]</mark> \
                  3C 2F 62 3E 20 73 6F 20 67 6F 6F 64 0A</code>";
    let unread = "<li id=m4><bdi>missing</bdi>: not read: No such file or directory (os error 2)";
    let places = [damage, unread, "<h2>Totals</h2>"].map(|part| page.find(part));
    assert!(places[0].is_some() && places.is_sorted(), "{places:?}");
    let ran = folder.run(&["page", "-q", "--repair", "-o", "page.html", "texts"]);
    assert_eq!(ran.status, 0);
    let page = String::from_utf8(folder.read("page.html")).expect("a text");
    assert!(
        page.contains(
            "<p>1 bad place replaced by U+FFFD. All places are those of the repaired text."
        )
    );
    assert!(!page.contains("<h2>Refused</h2>"));
}

#[test]
fn the_front_has_totals_tips_hashes_and_the_policy() {
    let folder = Folder::new("page-front");
    folder.write("a", MESSAGE);
    folder.write("b", "\u{2764}\u{2764}");
    folder.write("sheet", "23-1F6F3\n\n\n\n");
    folder.run(&["page", "-q", "-o", "page.html", "a", "b"]);
    let own = page(&folder);
    for part in [
        "<tr><th scope=row>policy-redundant<td class=n>1<td class=n>1<td>",
        "<tr><th scope=row>decisions<td class=n>3<td class=n>2<td>",
        "<tr><td class=n>2<td><bdi>\u{2764}</bdi><td><code>--add prefer_bare ordinary 2764</code>",
        "<p>This is the default policy.",
        // sha256sum gives these: of the policy, and of the message before and after.
        "<code>ee4bc8a6b42c7fb1cb4ce6b3966441b2c9f5395848e17f739429f38149584bfd</code>",
        "<p>Before: 8 bytes, SHA-256 <code>7f31e2919f6eedbe6678a7070f89ae9da22dc840efc6f4858ded29a989567c28</code>",
        "<br>After: 8 bytes, SHA-256 <code>a1994c33fe9678a2e28dab5e5296d34d72de0b217f233a257492f6228dd34722</code>",
        "<rect x=162 y=158 width=300 height=14>",
        "<tr><th scope=row>Tool<td>tilghorz-host 0.",
        "<tr><th scope=row>Unicode<td>15.0<tr><th scope=row>Kit<td>",
        "<tr><th scope=row>bare_as_text keycap<td><code>23-1F6F3</code>",
    ] {
        assert!(own.contains(part), "{part}");
    }
    folder.run(&["page", "-q", "-p", "sheet", "-o", "page.html", "a"]);
    let other = page(&folder);
    for part in [
        " differences from the default policy</summary>",
        "<tr><th scope=row><bdi>\u{2764}</bdi> <code>2764</code><td>ordinary<td>a base without a selector gets FE0E<td>FE0F is removed",
        "<tr><th scope=row>prefer_bare ordinary<td><code>23-1F6F3</code>",
    ] {
        assert!(other.contains(part), "{part}");
    }
}

#[test]
fn findings_and_lines_are_bounded() {
    let folder = Folder::new("page-bounded");
    // A text of 2 MB with 100,000 findings, and one of 4 MB without any.
    folder.write("many", "a line of text \u{2764}\n".repeat(100_000));
    folder.write(
        "long",
        "a line without a finding\n".repeat(160_000) + &"x".repeat(100_000),
    );
    folder.run(&["page", "-q", "-o", "page.html", "many", "long"]);
    let page = page(&folder);
    assert!(page.len() < 300_000, "{}", page.len());
    assert!(
        page.contains(
            "<tr class=k><td colspan=3>99,800 more findings, from line 201 on, not shown"
        )
    );
    assert!(page.contains("<summary>Lines 1 to 160,001 without a finding</summary>"));
    assert!(page.contains(" more lines</details>"));
    folder.run(&["page", "-q", "--most", "1", "-o", "page.html", "many"]);
    let page = String::from_utf8(folder.read("page.html")).expect("a text");
    assert!(page.contains("id=m1f1 ") && !page.contains("id=m1f2 "));
    assert!(page.contains("99,999 more findings, from line 2 on, not shown"));
}

#[test]
fn only_a_page_is_replaced() {
    let folder = Folder::new("page-replaced");
    folder.write("a", MESSAGE);
    folder.write("note", "not to be lost");
    let ran = folder.run(&["page", "-o", "note", "a"]);
    let told = "tilghorz-host: note: it is there already and is no page of this command, so it was not replaced\n";
    assert_eq!((ran.status, ran.err.as_str()), (2, told));
    assert_eq!(folder.read("note"), b"not to be lost");
    folder.write("page.html", "");
    fs::set_permissions(folder.path("page.html"), PermissionsExt::from_mode(0o640)).expect("set");
    let ran = folder.run(&["page", "-o", "page.html", "a"]);
    assert_eq!(ran.status, 0);
    let mode = fs::metadata(folder.path("page.html"))
        .expect("a page")
        .permissions()
        .mode();
    assert_eq!(mode & 0o777, 0o640);
    let ran = folder.run(&["page", "-o", "no-folder/page.html", "a"]);
    assert_eq!(
        (ran.status, ran.err.contains("no-folder/page.html: ")),
        (2, true)
    );
    let ran = folder.run(&["page", "a"]);
    assert_eq!(
        (ran.status, ran.err.contains("--output FILE is missing")),
        (2, true)
    );
    let ran = folder.run_with(
        &["page", "-o", "-", "--stdin-filename", "x<y"],
        MESSAGE.as_bytes(),
    );
    assert!(ran.text().contains("<bdi>x&lt;y</bdi>"));
    assert_eq!(folder.names(), ["a", "note", "page.html"]);
    assert_eq!(folder.run(&["format", "a"]).text(), FORMATTED);
}
