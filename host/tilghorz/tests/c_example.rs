//! The header is C, and a program in C that calls the library by it does what it says.

use std::path::Path;
use std::process::Command;

/// The folder of the header, from this package.
const INCLUDE: &str = concat!(env!("CARGO_MANIFEST_DIR"), "/../../include");

#[test]
fn the_example_in_c_formats_a_text() {
    let program = Path::new(env!("CARGO_TARGET_TMPDIR")).join("c_example");
    let mut compiler = Command::new("cc");
    compiler.args(["-std=c99", "-pedantic", "-Wall", "-Wextra", "-Werror"]);
    compiler.args(["-I", INCLUDE, &format!("{INCLUDE}/example.c")]);
    compiler.args(["-L", env!("TILGHORZ_FOLDER"), "-ltilghorz", "-o"]);
    let output = compiler.arg(&program).output().expect("a C compiler");
    let said = String::from_utf8_lossy(&output.stderr);
    assert!(output.status.success(), "{said}");
    let ran = Command::new(&program).output().expect("run");
    let written = String::from_utf8_lossy(&ran.stdout);
    assert_eq!(written, "changed: 31 20 E2 9D A4 EF B8 8E\n");
    assert!(ran.status.success());
}
