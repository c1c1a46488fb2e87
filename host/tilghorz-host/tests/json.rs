//! The report in JSON: what it says, and that it follows docs/report.schema.json.

mod support;

use std::ffi::OsStr;
use std::fs;
use std::os::unix::ffi::OsStrExt;
use std::path::Path;

use support::json::{Value, fault, parse};
use support::{Folder, MESSAGE, Ran};

fn schema() -> Value {
    let path = Path::new(env!("CARGO_MANIFEST_DIR")).join("../../docs/report.schema.json");
    parse(&fs::read_to_string(path).expect("the schema")).expect("JSON")
}

/// The objects of a report, each of which must follow the schema.
fn objects(ran: &Ran) -> Vec<Value> {
    let schema = schema();
    let read = |line: &str| {
        let object = parse(line).unwrap_or_else(|fault| panic!("{fault}: {line}"));
        assert_eq!(fault(&object, &schema, &schema), None, "{line}");
        object
    };
    ran.text().lines().map(read).collect()
}

/// A folder with texts of all kinds.
fn filled(name: &str) -> Folder {
    let folder = Folder::new(name);
    folder.write("message", format!("Hi\r\n{MESSAGE}\n"));
    folder.write("clean", "plain \"text\"\n");
    folder.write("damaged", b"one\ntwo \xE2\x9D");
    folder.write("every", {
        "a\u{FE0F} \u{261D}\u{FE0F}\u{1F3FB} \u{2764}\u{FE0F}\u{1F3FB} \u{231A}\u{FE0E}\u{E0061} \u{2764}\u{E0061} \
         \u{231A}\u{FE0F}\u{E0061} 1\u{FE0E} \u{2764}"
    });
    folder
}

#[test]
fn every_object_follows_the_schema() {
    let folder = filled("schema");
    let names = ["message", "clean", "damaged", "every", "missing"];
    for options in [
        &["--json"][..],
        &["--json", "--items"],
        &["--json", "--repair"],
        &["--json", "--at", "1"],
        &["--json", "--at", "2:1"],
        &["--json", "--from", "1", "--to", "6"],
    ] {
        let ran = folder.run(&[&["report", "--format=json"], options, &names].concat());
        assert_eq!((ran.status, objects(&ran).len()), (2, names.len()));
    }
}

#[test]
fn the_schema_refuses_what_is_wrong() {
    let folder = filled("schema_wrong");
    let ran = folder.run(&["report", "--json", "--items", "message"]);
    let (schema, line) = (schema(), ran.text());
    for (old, new) in [
        ("\"file\":", "\"File\":"),
        ("\"bytes\":13", "\"bytes\":-1"),
        ("\"bytes\":13", "\"bytes\":\"14\""),
        ("\"bytes\":13", "\"bytes\":1.5"),
        ("\"line\":2", "\"line\":0"),
        ("\"unicode\":\"15.0\"", "\"unicode\":\"15\""),
        ("\"kind\":\"passthrough\"", "\"kind\":\"other\""),
        ("_sha256\":\"", "_sha256\":\"0"),
        (
            ",\"totals\":",
            ",\"error\":{\"kind\":\"unread\",\"message\":\"\"},\"totals\":",
        ),
        ("\"replacement\":\"1\"", "\"replacement\":1"),
    ] {
        assert!(line.contains(old), "{old} in {line}");
        let changed = parse(&line.replacen(old, new, 1)).expect("JSON");
        assert!(fault(&changed, &schema, &schema).is_some(), "{new}");
    }
}

#[test]
fn an_object_says_what_was_read_and_what_was_found() {
    let folder = filled("json_object");
    let ran = folder.run(&["report", "--json", "message"]);
    let [object] = &*objects(&ran) else {
        panic!("one object")
    };
    let text = |name: &str| object.get(name).map(Value::text);
    assert_eq!((text("file"), text("file_hex")), (Some("message"), None));
    assert_eq!(text("unicode"), Some("15.0"));
    assert!(text("tool").is_some_and(|tool| tool.starts_with("tilghorz-host 0.")));
    // sha256sum gives these, of the file and of what `policy write` writes.
    let message = "5fbefb2c7ea71702a0c58d3adf2595f540feba066d47cffaaef2d042cf7e980c";
    let policy = "ee4bc8a6b42c7fb1cb4ce6b3966441b2c9f5395848e17f739429f38149584bfd";
    assert_eq!(text("text_sha256"), Some(message));
    assert_eq!(text("policy_sha256"), Some(policy));
    let Some(Value::Array(findings)) = object.get("findings") else {
        panic!("findings")
    };
    let places = findings.iter().map(|finding| {
        let number = |name| match finding.get(name) {
            Some(Value::Number(number)) => *number as usize,
            _ => panic!("{name}"),
        };
        (
            number("line"),
            number("column"),
            finding.get("replacement").expect("it").text(),
        )
    });
    let expected = [(2, 1, "1"), (2, 4, "\u{2764}\u{FE0E}")];
    assert!(places.eq(expected), "{}", ran.text());
}

#[test]
fn a_text_without_findings_to_report_has_an_error() {
    let folder = filled("json_error");
    let ran = folder.run(&[
        "report", "--json", "--at", "9:9", "damaged", "missing", "clean",
    ]);
    let errors: Vec<String> = objects(&ran)
        .iter()
        .map(|object| {
            let error = object.get("error").expect("an error");
            let place = [error.get("number"), error.get("line"), error.get("column")];
            format!("{} {place:?}", error.get("kind").expect("a kind").text())
        })
        .collect();
    let number = |number: f64| Some(Value::Number(number));
    let damaged = [number(3.0), number(2.0), number(5.0)];
    assert_eq!(
        errors[0],
        format!("refused {:?}", damaged.each_ref().map(Option::as_ref))
    );
    assert!(errors[1].starts_with("unread [None, None, None]"));
    assert!(errors[2].starts_with("no_place [None, None, None]"));
    assert_eq!(ran.status, 2);
}

#[test]
fn a_name_that_is_not_utf_8_is_there_without_loss() {
    let folder = Folder::new("json_name");
    let name = OsStr::from_bytes(b"a\xFF\n");
    fs::write(folder.path("").join(name), MESSAGE).expect("written");
    let ran = folder.run(&[OsStr::new("report"), OsStr::new("--json"), name]);
    let object = &objects(&ran)[0];
    assert_eq!(object.get("file").expect("a name").text(), "a\u{FFFD}\n");
    assert_eq!(object.get("file_hex").expect("a name").text(), "61ff0a");
}
