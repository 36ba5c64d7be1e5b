//! A run that is cut short, or of which a byte is damaged.

use crate::reports::small_run::{PARTS, RUN, assert_report, report_of_nothing, report_of_run};
use deodarsieve_cli::report::{Files, Format};
use deodarsieve_tests::reports::{OPTIONS, end_of_text, new_report, write_report};

/// The lines of the test of [`RUN`] if it crashed.
const CRASHED: &str = "CRASH suite 1 a\n    its process ended before it did\n";

/// What the report of [`RUN`] has before its end: the lines of the test that fails, and of the one that is not run.
const FAILED: &str = PARTS[0];
const NOT_RUN: &str = PARTS[1];

/// Returns the report of the first lines of [`RUN`], followed by a piece of the next line.
fn report_of(lines: usize, piece: &str) -> String {
    let damage = damage_of(piece);
    let (errors, error) = match damage.as_str() {
        "" => ("", String::new()),
        damage => (", 1 error", format!("       ERROR {damage}")),
    };
    let early = "       ERROR suite 1 ended early\n";
    let (notes, list, numbers, summary) = match lines {
        0 => return report_of_nothing(),
        // No test runs, and nothing says that the suite ended.
        1 => (
            "suite 1 ended early\nsuite 1: 2 of 2 tests were not run\n".to_string(),
            early.to_string(),
            "1 error, 2 not run".to_string(),
            "0 tests run: 0 passed (0 flaky), 0 failed (0 timed out, 0 crashed), 0 skipped, 2 not run",
        ),
        // What was printed while the test ran is shown under the crash.
        2 => (
            format!("{damage}{CRASHED}{}{NOT_RUN}", indented(piece)),
            format!("       CRASH suite 1 a: its process ended before it did\n{error}"),
            format!("1 failed (1 crashed){errors}, 1 not run"),
            "1 tests run: 0 passed (0 flaky), 1 failed (0 timed out, 1 crashed), 0 skipped, 1 not run",
        ),
        3 => (
            format!("{FAILED}{damage}suite 1 ended early\n{NOT_RUN}"),
            format!("        FAIL suite 1 a: why\n{error}{early}"),
            match errors {
                "" => "1 failed, 1 error, 1 not run".to_string(),
                _ => "1 failed, 2 errors, 1 not run".to_string(),
            },
            "1 tests run: 0 passed (0 flaky), 1 failed (0 timed out, 0 crashed), 0 skipped, 1 not run",
        ),
        _ => return report_of_run(),
    };
    notes + &end_of_text(&list, &numbers, summary, "failed")
}

/// Returns a piece of a line as it is shown under a test, or nothing if it is empty.
fn indented(piece: &str) -> String {
    match piece {
        "" => String::new(),
        piece => format!("    {piece}\n"),
    }
}

/// Returns the line of the report about a piece of a line of [`RUN`] that says that a test or a suite failed,
/// or nothing if it does not.
fn damage_of(piece: &str) -> String {
    if piece.contains(r#""event":"failed""#) {
        format!("a damaged line says that a test or a suite failed: {piece}\n")
    } else {
        String::new()
    }
}

#[test]
fn each_cut_of_a_run_has_its_report() {
    // The cut at the end of a line is the run up to that line, with its line feed or without it.
    let mut before = String::new();
    for (number, line) in RUN.lines().enumerate() {
        for len in 0..line.len() {
            let piece = &line[..len];
            let cut = format!("{before}{piece}");
            let report = report_of(number, piece);
            assert_report(&cut, &report, &format!("line {number} up to {len}"));
        }
        before.push_str(line);
        let report = report_of(number + 1, "");
        assert_report(&before, &report, &format!("end of line {number}"));
        before.push('\n');
    }
    assert_report(RUN, &report_of_run(), "the whole run");
}

/// Returns true if the input has a report that ends with an outcome.
fn has_report(input: &[u8]) -> bool {
    let mut written = Vec::new();
    let report = new_report(OPTIONS, Format::Text, Files::default());
    let end = write_report(report, input, &mut written);
    end.is_ok()
        && (written.ends_with(b"\noutcome failed\n") || written.ends_with(b"\noutcome cancelled\n"))
}

#[test]
fn a_run_with_a_damaged_byte_does_not_succeed() {
    for byte in [0, b'\n', b'"', b'{', b'\\', b'9', 0x80, 0xff] {
        for at in 0..RUN.len() {
            let mut input = Vec::from(RUN.as_bytes());
            input[at] = byte;
            assert!(has_report(&input), "{byte} at {at}");
        }
    }
}
