//! The suite of a test, how tests count, and lines that contradict each other.

use crate::reports::{Case, OPTIONS, assert_reports, reported};
use deodarsieve_cli::report::Format;
use deodarsieve_tests::reports::end_of_text;

#[test]
fn ends_without_a_start() {
    assert_reports(&[
        Case {
            name: "a suite ends twice, and its test runs once more",
            lines: r#"{"type":"suite","event":"started","test_count":1}
{"type":"test","event":"started","name":"a"}
{"type":"test","event":"ok","name":"a"}
{"type":"suite","event":"ok"}
{"type":"suite","event":"failed"}
{"type":"test","event":"started","name":"a"}
{"type":"test","event":"failed","name":"a"}
"#,
            notes: "a suite ended that had not started: failed\n\
                FAIL a\n    no output was captured\n1 tests started outside of a suite\n",
            numbers: "1 failed, 2 errors, 1 passed",
            summary: "2 tests run: 1 passed (0 flaky), 1 failed (0 timed out, 0 crashed), 0 skipped, 0 not run",
            list: "        FAIL a: no output was captured\n       \
                ERROR a suite ended that had not started: failed\n       \
                ERROR 1 tests started outside of a suite\n",
            outcome: "failed",
        },
        Case {
            name: "a test starts before the first suite, and ends in it",
            lines: r#"{"type":"suite","event":"ok"}
{"type":"test","event":"started","name":"a"}
{"type":"suite","event":"started","test_count":0}
{"type":"test","event":"failed","name":"a"}
{"type":"suite","event":"ok"}
"#,
            notes: "FAIL a\n    no output was captured\n1 tests started outside of a suite\n",
            numbers: "1 failed, 1 error",
            summary: "1 tests run: 0 passed (0 flaky), 1 failed (0 timed out, 0 crashed), 0 skipped, 0 not run",
            list: "        FAIL a: no output was captured\n       ERROR 1 tests started outside of a suite\n",
            outcome: "failed",
        },
        Case {
            name: "ends of tests that are not running",
            lines: r#"{"type":"suite","event":"started","test_count":2}
{"type":"test","event":"started","name":"a"}
{"type":"test","event":"failed","name":"b"}
{"type":"test","event":"timeout","name":"b"}
{"type":"test","event":"timeout","name":"a"}
{"type":"test","event":"ignored","name":"c"}
{"type":"bench","name":"d","median":1,"deviation":0}
{"type":"suite","event":"ok"}
"#,
            notes: "FAIL suite 1 b\n    no output was captured\nb ended failed, and had not started\n\
                d ended ok, and had not started\n\
                suite 1: its last line says ok, but 0 of its tests passed and 1 failed\n\
                suite 1: 1 of 2 tests were not run\n",
            numbers: "1 failed, 3 errors, 1 not run, 1 skipped",
            summary: "1 tests run: 0 passed (0 flaky), 1 failed (0 timed out, 0 crashed), 1 skipped, 1 not run",
            list: "        FAIL suite 1 b: no output was captured\n       \
                ERROR b ended failed, and had not started\n       \
                ERROR d ended ok, and had not started\n       \
                ERROR suite 1: its last line says ok, but 0 of its tests passed and 1 failed\n",
            outcome: "failed",
        },
    ]);
}

#[test]
fn suites() {
    assert_reports(&[
        Case {
            name: "a suite starts in another, whose tests are over",
            lines: r#"{"type":"suite","event":"started","test_count":3}
{"type":"test","event":"started","name":"b"}
{"type":"test","event":"started","name":"Z"}
{"type":"test","event":"started","name":"a"}
{"type":"test","event":"ok","name":"Z"}
{"type":"suite","event":"started","test_count":1}
{"type":"test","event":"failed","name":"b"}
{"type":"test","event":"started","name":"a"}
{"type":"test","event":"ok","name":"a"}
{"type":"suite","event":"ok"}
"#,
            notes: "CRASH suite 1 b\n    one of 2 tests that ran when its process ended\n\
                CRASH suite 1 a\n    one of 2 tests that ran when its process ended\n\
                FAIL suite 2 b\n    no output was captured\nb ended failed, and had not started\n\
                suite 2: its last line says ok, but 1 of its tests passed and 1 failed\n",
            numbers: "3 failed (2 crashed), 2 errors, 2 passed",
            summary: "5 tests run: 2 passed (0 flaky), 3 failed (0 timed out, 2 crashed), 0 skipped, 0 not run",
            list: "       CRASH 2 tests: one of 2 tests that ran when its process ended\n             \
                suite 1 a\n             \
                suite 1 b\n        \
                FAIL suite 2 b: no output was captured\n       \
                ERROR b ended failed, and had not started\n       \
                ERROR suite 2: its last line says ok, but 1 of its tests passed and 1 failed\n",
            outcome: "failed",
        },
        Case {
            name: "more tests than announced, one of which runs twice",
            lines: r#"{"type":"suite","event":"started","test_count":0}
{"type":"test","event":"started","name":"a"}
{"type":"test","event":"started","name":"a"}
{"type":"test","event":"ok","name":"a"}
{"type":"test","event":"ok","name":"a"}
{"type":"test","event":"started","name":"b"}
{"type":"test","event":"ignored","name":"b"}
{"type":"suite","event":"ok"}
"#,
            notes: "",
            numbers: "2 passed, 1 skipped",
            summary: "2 tests run: 2 passed (0 flaky), 0 failed (0 timed out, 0 crashed), 1 skipped, 0 not run",
            list: "",
            outcome: "success",
        },
        Case {
            name: "the largest numbers of tests",
            lines: r#"{"type":"suite","event":"started","test_count":4294967295}
{"type":"suite","event":"ok"}
{"type":"suite","event":"started","test_count":4294967295}
{"type":"suite","event":"ok"}
"#,
            notes: "suite 1: 4294967295 of 4294967295 tests were not run\n\
                suite 2: 4294967295 of 4294967295 tests were not run\n",
            numbers: "8589934590 not run",
            summary: "0 tests run: 0 passed (0 flaky), 0 failed (0 timed out, 0 crashed), 0 skipped, \
                8589934590 not run",
            list: "",
            outcome: "cancelled",
        },
    ]);
}

#[test]
fn last_lines() {
    assert_reports(&[
        Case {
            name: "a benchmark fails, and the last line does not count it",
            lines: r#"{"type":"suite","event":"started","test_count":1}
{"type":"test","event":"started","name":"a"}
{"type":"bench","event":"failed","name":"a","median":1,"deviation":0}
{"type":"suite","event":"ok","passed":0,"measured":1,"failed":0}
"#,
            notes: "FAIL suite 1 a\n    no output was captured\n\
                suite 1: its last line counts 1 passed and 0 failed (ok), but 0 of its tests passed and 1 failed\n",
            numbers: "1 failed, 1 error",
            summary: "1 tests run: 0 passed (0 flaky), 1 failed (0 timed out, 0 crashed), 0 skipped, 0 not run",
            list: "        FAIL suite 1 a: no output was captured\n       \
                ERROR suite 1: its last line counts 1 passed and 0 failed (ok), \
                but 0 of its tests passed and 1 failed\n",
            outcome: "failed",
        },
        Case {
            name: "a failed test without an end comes before a flaky test that is set to fail",
            lines: r#"{"type":"suite","event":"started","test_count":4}
{"type":"test","event":"started","name":"flaky"}
{"type":"test","event":"started","name":"lost"}
{"type":"test","event":"started","name":"ignored"}
{"type":"test","event":"ok","name":"flaky#2"}
{"type":"test","event":"ignored","name":"ignored"}
{"type":"suite","event":"failed","passed":0,"failed":2,"ignored":2,"measured":0}
"#,
            notes: "FAIL suite 1 lost\n    no line says how it ended\n\
                FAIL suite 1 flaky (2 attempts)\n    flaky, and set to fail\n",
            numbers: "2 failed, 2 skipped",
            summary: "2 tests run: 0 passed (0 flaky), 2 failed (0 timed out, 0 crashed), 2 skipped, 0 not run",
            list: "        FAIL suite 1 flaky: flaky, and set to fail\n        \
                FAIL suite 1 lost: no line says how it ended\n",
            outcome: "failed",
        },
    ]);
}

#[test]
fn several_files() {
    let first = "     Running unittests src/lib.rs (target/debug/deps/a-0123456789abcdef)\n\
        {\"type\":\"suite\",\"event\":\"started\",\"test_count\":2}\n\
        {\"type\":\"test\",\"event\":\"started\",\"name\":\"x\"}";
    let second = "{\"type\":\"suite\",\"event\":\"started\",\"test_count\":1}\n\
        {\"type\":\"test\",\"event\":\"started\",\"name\":\"x\"}\n\
        {\"type\":\"test\",\"event\":\"ok\",\"name\":\"x\"}\n\
        {\"type\":\"suite\",\"event\":\"ok\"}\nerror: test failed, to rerun pass `--lib`\n";
    let notes = "CRASH a (unittests src/lib.rs) x\n    its process ended before it did\n\
        a (unittests src/lib.rs): 1 of 2 tests were not run\n\
        cargo: error: test failed, to rerun pass `--lib`\n";
    let end = end_of_text(
        "       CRASH a (unittests src/lib.rs) x: its process ended before it did\n       \
        ERROR cargo: error: test failed, to rerun pass `--lib`\n",
        "1 failed (1 crashed), 1 error, 1 not run, 1 passed",
        "2 tests run: 1 passed (0 flaky), 1 failed (0 timed out, 1 crashed), 0 skipped, 1 not run",
        "failed",
    );
    let (text, _) = reported(OPTIONS, Format::Text, &[first, second]);
    assert_eq!(text, [notes, &end].concat());
    assert_eq!(reported(OPTIONS, Format::Names, &[first, second]).0, "x\n");
}

#[test]
fn a_sum_of_times_that_does_not_fit() {
    let mut lines = String::from("{\"type\":\"suite\",\"event\":\"started\"}\n");
    for number in 0..18_448 {
        lines.push_str(&format!(
            "{{\"type\":\"test\",\"event\":\"started\",\"name\":\"t{number}\"}}\n\
             {{\"type\":\"test\",\"event\":\"ok\",\"name\":\"t{number}\",\"exec_time\":999999999}}\n"
        ));
    }
    lines.push_str("{\"type\":\"test\",\"event\":\"failed\",\"name\":\"real\",\"exec_time\":1}\n");
    assert_eq!(reported(OPTIONS, Format::Names, &[&lines]).0, "real\n");
    let (text, _) = reported(OPTIONS, Format::Text, &[&lines, &lines]);
    let summary = "     Summary [18446744073709.551s] 36898 tests run: \
        36896 passed (0 flaky, 36896 slow), 2 failed ";
    assert!(text.contains(summary), "{text}");
}
