//! Lines that are long, and lines that nest deeply.

use crate::reports::small_run::{assert_report, report_of_nothing};
use deodarsieve_tests::reports::end_of_text;

/// Returns the run of a test with a message of this number of times 50,000 bytes.
fn run_with_message(times: usize) -> String {
    let mut run = String::from(
        r#"{"type":"suite","event":"started","test_count":1}
{"type":"test","event":"started","name":"a"}
{"type":"test","event":"failed","name":"a","message":""#,
    );
    run.push_str(&"y".repeat(50_000 * times));
    run.push_str("\"}\n{\"type\":\"suite\",\"event\":\"failed\"}");
    run
}

#[test]
fn a_long_line_is_shown_without_its_middle() {
    for (times, middle) in [(1, 49_520), (100, 4_999_520)] {
        let input = run_with_message(times);
        let line = format!("{:y>384} .. {middle} bytes .. {:y>96}", "", "");
        let end = end_of_text(
            &format!("        FAIL suite 1 a: {line}\n"),
            "1 failed",
            "1 tests run: 0 passed (0 flaky), 1 failed (0 timed out, 0 crashed), 0 skipped, 0 not run",
            "failed",
        );
        let report = format!("FAIL suite 1 a\n    {line}\n{end}");
        assert_report(&input, &report, &format!("{times} times"));
    }
}

#[test]
fn lines_nest_at_most_127_deep() {
    let event = "suite 1 ended early\nsuite 1: 3 of 3 tests were not run\n".to_string()
        + &end_of_text(
            "       ERROR suite 1 ended early\n",
            "1 error, 3 not run",
            "0 tests run: 0 passed (0 flaky), 0 failed (0 timed out, 0 crashed), 0 skipped, 3 not run",
            "failed",
        );
    // The object itself is one level.
    for (arrays, report) in [
        (1, event.clone()),
        (126, event),
        (127, report_of_nothing()),
        (50_000, report_of_nothing()),
    ] {
        let input = format!(
            r#"{{"type":"suite","event":"started","test_count":3,"nextest":{:[>arrays$}{:]>arrays$}}}"#,
            "", ""
        );
        assert_report(&input, &report, &format!("{arrays} arrays"));
    }
}
