//! How much is shown of the explanation of a failure, and in which form.

use crate::reports::{Case, OPTIONS, assert_reports, assert_reports_with, reported};
use deodarsieve::TestOutputDisplay;
use deodarsieve_cli::report::Format;
use deodarsieve_cli::report::options::{Options, OutputDisplay};
use deodarsieve_tests::reports::end_of_text;

/// A failed test with an explanation of nine bytes: a character of two bytes, an escape and three
/// letters after it, and a character of three bytes.
const RUN: &str = r#"{"type":"suite","event":"started","test_count":1}
{"type":"test","event":"started","name":"a"}
{"type":"test","event":"failed","name":"a","message":"£\u001b[1J€"}
{"type":"suite","event":"failed"}"#;

/// A failed test whose output has twelve lines, one of which is blank, and a blank line after them.
const TWELVE_LINES: &str = r#"{"type":"suite","event":"started","test_count":1}
{"type":"test","event":"started","name":"a"}
{"type":"test","event":"failed","name":"a","stdout":"1\n2\n3\n4\n5\n6\n7\n8\n\n10\n11\n12\n\n"}
{"type":"suite","event":"failed"}
"#;

#[test]
fn a_limit_cuts_a_short_reason_before_a_character() {
    for (limit, raw, short) in [
        (2, false, "£"),
        (3, false, "£\\u{1b}"),
        (3, true, "£\u{1b}"),
        (6, true, "£\u{1b}[1J"),
        (8, false, "£\\u{1b}[1J"),
        (9, false, "£\\u{1b}[1J€"),
        (9, true, "£\u{1b}[1J€"),
        (usize::MAX, true, "£\u{1b}[1J€"),
    ] {
        let options = Options {
            limit,
            raw,
            ..OPTIONS
        };
        // The only line of a reason is shown whatever the limit is.
        let why = if raw {
            "£\u{1b}[1J€"
        } else {
            "£\\u{1b}[1J€"
        };
        let end = end_of_text(
            &format!("        FAIL suite 1 a: {short}\n"),
            "1 failed",
            "1 tests run: 0 passed (0 flaky), 1 failed (0 timed out, 0 crashed), 0 skipped, 0 not run",
            "failed",
        );
        let (text, _) = reported(options, Format::Text, &[RUN]);
        let wanted = format!("FAIL suite 1 a\n    {why}\n{end}");
        assert_eq!(text, wanted, "{options:?}");
    }
}

#[test]
fn colours_are_around_the_words_for_results() {
    let options = Options {
        color: true,
        ..OPTIONS
    };
    let (text, _) = reported(options, Format::Text, &[RUN]);
    let red = |word: &str| format!("\u{1b}[1;31m{word}\u{1b}[0m");
    let plain = text
        .replace(&red("FAIL"), "FAIL")
        .replace(&red("1 failed"), "1 failed");
    assert_eq!(plain, reported(OPTIONS, Format::Text, &[RUN]).0);
    assert_ne!(plain, text);
}

#[test]
fn reasons() {
    assert_reports(&[
        Case {
            name: "a time limit and blank output; a reason and a message come before output",
            lines: r#"{"type":"suite","event":"started","test_count":2}
{"type":"test","event":"started","name":"a"}
{"type":"test","event":"failed","name":"a","reason":"time limit exceeded","stdout":" \n\t\n","exec_time":2.5}
{"type":"test","event":"started","name":"b"}
{"type":"test","event":"failed","name":"b","reason":"other","stdout":"x\n","message":"why"}
{"type":"suite","event":"failed"}
"#,
            notes: "TIMEOUT [   2.500s] suite 1 a\n    timed out after 2.500s\n\
                FAIL suite 1 b\n    other\n    why\n    x\n",
            numbers: "2 failed (1 timed out)",
            summary: "[   2.500s] 2 tests run: 0 passed (0 flaky), 2 failed (1 timed out, 0 crashed), \
                0 skipped, 0 not run",
            list: "     TIMEOUT suite 1 a: timed out after 2.500s\n        \
                FAIL suite 1 b: other\n",
            outcome: "failed",
        },
        Case {
            name: "a whole output, and the first of its last ten lines that are not blank",
            lines: TWELVE_LINES,
            notes: "FAIL suite 1 a\n    1\n    2\n    3\n    4\n    5\n    6\n    7\n    8\n    \n    10\n    11\n    12\n",
            numbers: "1 failed",
            summary: "1 tests run: 0 passed (0 flaky), 1 failed (0 timed out, 0 crashed), 0 skipped, 0 not run",
            list: "        FAIL suite 1 a: 2\n",
            outcome: "failed",
        },
        Case {
            name: "a panic, and its short reason",
            lines: r#"{"type":"suite","event":"started","test_count":1}
{"type":"test","event":"started","name":"a"}
{"type":"test","event":"failed","name":"a","stdout":"log\r\nthread 'a' (7) panicked at src/a.rs:1:2:\r\nwhy\r\nmore\n"}
{"type":"suite","event":"failed"}
"#,
            notes: "FAIL suite 1 a\n    log\n    thread 'a' (7) panicked at src/a.rs:1:2:\n    why\n    more\n",
            numbers: "1 failed",
            summary: "1 tests run: 0 passed (0 flaky), 1 failed (0 timed out, 0 crashed), 0 skipped, 0 not run",
            list: "        FAIL src/a.rs:1:2: suite 1 a: why\n",
            outcome: "failed",
        },
        Case {
            name: "a crash after two panics, and its short reason",
            lines: r#"{"type":"suite","event":"started","test_count":1}
{"type":"test","event":"started","name":"a"}
log
thread 'worker' (8) panicked at src/b.rs:3:4:
no money
log
thread 'a' (7) panicked at src/a.rs:1:2:
the worker panicked
"#,
            notes: "CRASH suite 1 a\n    its process ended before it did\n    log\n    \
                thread 'worker' (8) panicked at src/b.rs:3:4:\n    no money\n    log\n    \
                thread 'a' (7) panicked at src/a.rs:1:2:\n    the worker panicked\n",
            numbers: "1 failed (1 crashed)",
            summary: "1 tests run: 0 passed (0 flaky), 1 failed (0 timed out, 1 crashed), 0 skipped, 0 not run",
            list: "       CRASH src/b.rs:3:4: suite 1 a: its process ended before it did: no money\n",
            outcome: "failed",
        },
    ]);
}

/// Two suites, each with two tests that crash. One suite printed a panic before that, and the other one a log line.
const CRASHES: &str = r#"{"type":"suite","event":"started","test_count":2}
{"type":"test","event":"started","name":"a"}
{"type":"test","event":"started","name":"b"}
thread 'b' (8) panicked at src/b.rs:3:4:
no money
{"type":"suite","event":"started","test_count":2}
{"type":"test","event":"started","name":"c"}
{"type":"test","event":"started","name":"d"}
log
"#;

#[test]
fn explanations_above() {
    let case = Case {
        name: "an explanation is shown of the first crashed test of a suite, and prints of each",
        lines: CRASHES,
        notes: "CRASH suite 1 a\n    one of 2 tests that ran when its process ended\n    \
            thread 'b' (8) panicked at src/b.rs:3:4:\n    no money\n\
            CRASH suite 1 b\n    one of 2 tests that ran when its process ended\n    as above\n\
            CRASH suite 2 c\n    one of 2 tests that ran when its process ended\n    log\n\
            CRASH suite 2 d\n    one of 2 tests that ran when its process ended\n    log\n",
        numbers: "4 failed (4 crashed)",
        summary: "4 tests run: 0 passed (0 flaky), 4 failed (0 timed out, 4 crashed), 0 skipped, 0 not run",
        list: "       CRASH 2 tests: src/b.rs:3:4: one of 2 tests that ran when its process ended: no money\n             \
            suite 1 a\n             \
            suite 1 b\n       \
            CRASH 2 tests: one of 2 tests that ran when its process ended\n             \
            suite 2 c\n             \
            suite 2 d\n",
        outcome: "failed",
    };
    assert_reports(&[case]);
    let options = Options {
        failure_output: TestOutputDisplay::Final,
        ..OPTIONS
    };
    let listed = Case {
        name: "the same in the list",
        lines: CRASHES,
        notes: "CRASH suite 1 a\nCRASH suite 1 b\nCRASH suite 2 c\nCRASH suite 2 d\n",
        numbers: "4 failed (4 crashed)",
        summary: "4 tests run: 0 passed (0 flaky), 4 failed (0 timed out, 4 crashed), 0 skipped, 0 not run",
        list: "       CRASH src/b.rs:3:4: suite 1 a: one of 2 tests that ran when its process ended: no money\n             \
            one of 2 tests that ran when its process ended\n             \
            thread 'b' (8) panicked at src/b.rs:3:4:\n             no money\n       \
            CRASH src/b.rs:3:4: suite 1 b: one of 2 tests that ran when its process ended: no money\n             \
            one of 2 tests that ran when its process ended\n             as above\n       \
            CRASH suite 2 c: one of 2 tests that ran when its process ended\n             \
            one of 2 tests that ran when its process ended\n             log\n       \
            CRASH suite 2 d: one of 2 tests that ran when its process ended\n             \
            one of 2 tests that ran when its process ended\n             log\n",
        outcome: "failed",
    };
    assert_reports_with(options, &[listed]);
}

#[test]
fn short_reasons() {
    let options = Options {
        output: OutputDisplay::Short,
        ..OPTIONS
    };
    let case = Case {
        name: "the last ten lines that are not blank",
        lines: TWELVE_LINES,
        notes: "FAIL suite 1 a\n    2\n    3\n    4\n    5\n    6\n    7\n    8\n    10\n    11\n    12\n    \
            (1 more line of output)\n",
        numbers: "1 failed",
        summary: "1 tests run: 0 passed (0 flaky), 1 failed (0 timed out, 0 crashed), 0 skipped, 0 not run",
        list: "        FAIL suite 1 a: 2\n",
        outcome: "failed",
    };
    assert_reports_with(options, &[case]);
}
