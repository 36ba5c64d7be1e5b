//! A small run, and its report as text.

use crate::reports::reported;
use deodarsieve_cli::report::Format;
use deodarsieve_tests::reports::{OPTIONS, end_of_text};

/// A suite of two tests. One fails, and the other is not run.
pub const RUN: &str = r#"{"type":"suite","event":"started","test_count":2}
{"type":"test","event":"started","name":"a"}
{"type":"test","event":"failed","name":"a","message":"why"}
{"type":"suite","event":"failed"}
"#;

/// The parts of the report of [`RUN`]: what the third line makes known, what the last line makes
/// known, and the end.
pub const PARTS: [&str; 3] = [
    "FAIL suite 1 a\n    why\n",
    "suite 1: 1 of 2 tests were not run\n",
    "------------\n        \
     FAIL suite 1 a: why\n\
     1 failed, 1 not run\n\
     ------------\n     \
     Summary 1 tests run: 0 passed (0 flaky), 1 failed (0 timed out, 0 crashed), 0 skipped, 1 not run\n\
     outcome failed\n",
];

/// The report of [`RUN`].
pub fn report_of_run() -> String {
    PARTS.concat()
}

/// Returns the report of no event.
pub fn report_of_nothing() -> String {
    let notes = "no line of the input is of a test run\n\
    \x20   cargo test writes such lines with: RUSTC_BOOTSTRAP=1 cargo test -- -Z unstable-options --format json\n\
    \x20   test-report -- cargo test does this by itself\n";
    let end = end_of_text(
        "       ERROR no line of the input is of a test run\n",
        "1 error",
        "0 tests run: 0 passed (0 flaky), 0 failed (0 timed out, 0 crashed), 0 skipped, 0 not run",
        "failed",
    );
    [notes, &end].concat()
}

/// Asserts the report of an input, whose run does not succeed.
pub fn assert_report(input: &str, text: &str, what: &str) {
    let (written, success) = reported(OPTIONS, Format::Text, &[input]);
    assert_eq!(written, text, "{what}");
    assert!(!success, "{what}");
}
