//! The output of the test program is the text that is stored next to its input, in `data`.

use std::fs::{self, File};
use std::path::Path;
use std::process::Command;

/// Runs a program on its stored input, and compares its output and its exit status.
fn gives_stored_output(program: &str, name: &str) {
    let stored = Path::new(env!("CARGO_MANIFEST_DIR"))
        .join("data")
        .join(name);
    let input = File::open(stored.with_extension("stdin")).expect("the stored input can be opened");
    let expected =
        fs::read_to_string(stored.with_extension("stdout")).expect("the stored output is text");
    let output = Command::new(program)
        .stdin(input)
        .output()
        .expect("the program runs");
    let written = String::from_utf8_lossy(&output.stdout);
    let differing = written
        .lines()
        .zip(expected.lines())
        .find(|(written, expected)| written != expected);
    assert_eq!(
        differing, None,
        "a line that is written, and the stored one"
    );
    assert_eq!(written.len(), expected.len(), "bytes of output");
    assert_eq!(String::from_utf8_lossy(&output.stderr), "");
    assert!(output.status.success(), "{}", output.status);
}

#[test]
fn output_slice_tests() {
    gives_stored_output(
        env!("CARGO_BIN_EXE_output_slice_tests"),
        "output_slice_tests",
    );
}
