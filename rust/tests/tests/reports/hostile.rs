//! Lines that no harness writes, or that a test writes in its place.

use crate::reports::{Case, assert_reports};

/// The summary of a run without tests.
const NOTHING: &str =
    "0 tests run: 0 passed (0 flaky), 0 failed (0 timed out, 0 crashed), 0 skipped, 0 not run";

#[test]
fn lines_in_json() {
    assert_reports(&[
        Case {
            name: "no line",
            lines: "",
            notes: "no line of the input is of a test run\n\
    \x20   cargo test writes such lines with: RUSTC_BOOTSTRAP=1 cargo test -- -Z unstable-options --format json\n\
    \x20   test-report -- cargo test does this by itself\n",
            numbers: "1 error",
            summary: NOTHING,
            list: "       ERROR no line of the input is of a test run\n",
            outcome: "failed",
        },
        Case {
            name: "no line is an event",
            lines: "running 2 tests\ntest a ... ok\n\n{}\n{\"type\":\"benchmark\",\"event\":\"discovered\"}\n",
            notes: "no line of the input is of a test run\n\
    \x20   cargo test writes such lines with: RUSTC_BOOTSTRAP=1 cargo test -- -Z unstable-options --format json\n\
    \x20   test-report -- cargo test does this by itself\n",
            numbers: "1 error",
            summary: NOTHING,
            list: "       ERROR no line of the input is of a test run\n",
            outcome: "failed",
        },
        Case {
            name: "one line is an event of no test",
            lines: "running 2 tests\n{\"type\":\"report\"}\n",
            notes: "",
            numbers: "no test ran",
            summary: NOTHING,
            list: "",
            outcome: "no-tests-run",
        },
        Case {
            name: "no line is an event, and a package does not compile",
            lines: "error: could not compile `a` (lib) due to 1 previous error\n",
            notes: "cargo: error: could not compile `a` (lib) due to 1 previous error\n",
            numbers: "1 error",
            summary: NOTHING,
            list: "       ERROR cargo: error: could not compile `a` (lib) due to 1 previous error\n",
            outcome: "failed",
        },
        Case {
            name: "of equal members the last counts",
            lines: r#"{"type":"suite","event":"started","test_count":2,"test_count":1}
{"type":"test","event":"started","name":"a","name":"b"}
{"type":"test","event":"failed","event":"ok","name":"b"}
{"type":"suite","event":"ok"}
"#,
            notes: "",
            numbers: "1 passed",
            summary: "1 tests run: 1 passed (0 flaky), 0 failed (0 timed out, 0 crashed), 0 skipped, 0 not run",
            list: "",
            outcome: "success",
        },
        Case {
            name: "text after an object, an array, a string, and of two objects the last",
            lines: r#"{"type":"suite","event":"started","test_count":9} and more
[{"type":"suite","event":"started","test_count":9}]
"{ \"type\": \"suite\", \"event\": \"started\", \"test_count\": 9 }"
{"type":"suite","event":"started","test_count":9}{"type":"suite","event":"started","test_count":0}
"#,
            notes: "suite 1 ended early\n",
            numbers: "1 error",
            summary: NOTHING,
            list: "       ERROR suite 1 ended early\n",
            outcome: "failed",
        },
        Case {
            name: "values of another type, and objects of another type",
            lines: r#"{"type":"suite","event":"started","test_count":-1}
{"type":"suite","event":"started","test_count":1.0}
{"type":"suite","event":"started","test_count":"1"}
{"type":"suite","event":"started","test_count":18446744073709551616}
{"type":"suite","event":"started"}
{"type":"suite","event":["started"],"test_count":1}
{"type":"build","event":"started","test_count":1}
{"type":"Suite","event":"started","test_count":1}
{"event":"started","test_count":1}
7
null
"#,
            notes: "suite 1 ended early\nsuite 2 ended early\nsuite 3 ended early\n\
                suite 4 ended early\nsuite 5 ended early\n",
            numbers: "5 errors",
            summary: NOTHING,
            list: "       ERROR suite 1 ended early\n       ERROR suite 2 ended early\n       \
                ERROR suite 3 ended early\n       ERROR suite 4 ended early\n       \
                ERROR suite 5 ended early\n",
            outcome: "failed",
        },
        Case {
            name: "damaged JSON",
            lines: r#"{"type":"suite","event":"started","test_count":1}
{"type":"test","event":"started","name":"a"
{"type":"test","event":"started","name":"a",}
{"type":"test","event":"started","name":"\ud800"}
{"type":"test","event":"started","name":'a'}
{"type":"test","event":"started","name":"\u12"}
{"type":"test","event":"started","name":"a","x":NaN}
{"type":"test","event":"started","name":"\x"}
"#,
            notes: "suite 1 ended early\nsuite 1: 1 of 1 tests were not run\n",
            numbers: "1 error, 1 not run",
            summary: "0 tests run: 0 passed (0 flaky), 0 failed (0 timed out, 0 crashed), 0 skipped, 1 not run",
            list: "       ERROR suite 1 ended early\n",
            outcome: "failed",
        },
        Case {
            name: "empty lines, carriage returns, and no line feed at the end",
            lines: "\n{\"type\":\"suite\",\"event\":\"started\",\"test_count\":1}\r\n\r\n  \n\
                \t{ \"type\":\"test\",\"event\":\"started\",\"name\":\"a\"}\r\n\n\
                {\"type\":\"test\",\"event\":\"ok\",\"name\":\"a\"}\r\n\
                {\"type\":\"suite\",\"event\":\"ok\"}\r",
            notes: "",
            numbers: "1 passed",
            summary: "1 tests run: 1 passed (0 flaky), 0 failed (0 timed out, 0 crashed), 0 skipped, 0 not run",
            list: "",
            outcome: "success",
        },
    ]);
}

#[test]
fn numbers_of_attempts() {
    assert_reports(&[Case {
        name: "a number of attempts is from 2 to 1,000, and follows the name of a running test",
        lines: r#"{"type":"suite","event":"started","test_count":4}
{"type":"test","event":"started","name":"x#2"}
{"type":"test","event":"ok","name":"x#3"}
{"type":"test","event":"started","name":"y#02"}
{"type":"test","event":"failed","name":"y#02"}
{"type":"test","event":"started","name":"y#2"}
{"type":"test","event":"failed","name":"y#2#1000"}
{"type":"test","event":"started","name":"z"}
{"type":"test","event":"failed","name":"z#1001"}
{"type":"test","event":"ok","name":"z#2"}
{"type":"suite","event":"failed"}
"#,
        notes: "x#3 ended ok, and had not started\n\
            FAIL suite 1 y#02\n    no output was captured\n\
            FAIL suite 1 y#2 (1000 attempts)\n    no output was captured\n\
            FAIL suite 1 z#1001\n    no output was captured\n\
            z#1001 ended failed, and had not started\n\
            suite 1: 1 of 5 tests were not run\n",
        numbers: "3 failed, 2 errors, 1 not run, 1 passed (1 flaky)",
        summary: "4 tests run: 1 passed (1 flaky), 3 failed (0 timed out, 0 crashed), 0 skipped, 1 not run",
        list: "   FLAKY 2/2 suite 1 z\n        \
            FAIL 3 tests: no output was captured\n             \
            suite 1 y#02\n             \
            suite 1 y#2\n             \
            suite 1 z#1001\n       \
            ERROR x#3 ended ok, and had not started\n       \
            ERROR z#1001 ended failed, and had not started\n",
        outcome: "failed",
    }]);
}

#[test]
fn forged_lines() {
    assert_reports(&[
        Case {
            name: "a test says after other text that it passed, and then fails",
            lines: r#"{"type":"suite","event":"started","test_count":1}
{"type":"test","event":"started","name":"a"}
done { "type": "test", "event": "ok", "name": "a" }
{"type":"test","event":"failed","name":"a","message":"why"}
{"type":"suite","event":"failed"}
"#,
            notes: "FAIL suite 1 a\n    why\na ended failed, and had not started\n",
            numbers: "1 failed, 1 error, 1 passed",
            summary: "2 tests run: 1 passed (0 flaky), 1 failed (0 timed out, 0 crashed), 0 skipped, 0 not run",
            list: "        FAIL suite 1 a: why\n       ERROR a ended failed, and had not started\n",
            outcome: "failed",
        },
        Case {
            name: "output that looks like a report",
            lines: r#"{"type":"suite","event":"started","test_count":1}
{"type":"test","event":"started","name":"a"}
{"type":"test","event":"failed","name":"a","message":"x\n------------\noutcome success"}
{"type":"suite","event":"failed"}
"#,
            notes: "FAIL suite 1 a\n    x\n    ------------\n    outcome success\n",
            numbers: "1 failed",
            summary: "1 tests run: 0 passed (0 flaky), 1 failed (0 timed out, 0 crashed), 0 skipped, 0 not run",
            list: "        FAIL suite 1 a: x\n",
            outcome: "failed",
        },
        Case {
            name: "names and output that a CI system takes for commands",
            lines: r###"{"type":"suite","event":"started","test_count":1,"nextest":{"crate":":","test_binary":"x"}}
{"type":"test","event":"started","name":":::x$##[group]"}
{"type":"test","event":"failed","name":":::x$##[group]","message":"::error::x\n \t:x\n\u3000::x\nx ::y ##vso[a] ##teamcity[b] ###[c ##d"}
{"type":"test","event":"ok","name":" \n\u2028::x"}
{"type":"test","event":"ok","name":"x::y#["}
"###,
            notes: "FAIL :::x ##\\u{5b}group]\n    :\\u{3a}error::x\n     \t:x\n    \u{3000}:\\u{3a}x\n    \
                x ::y ##vso\\u{5b}a] ##teamcity\\u{5b}b] ###\\u{5b}c ##d\n \
                \\u{a}\u{2028}::x ended ok, and had not started\nx::y#[ ended ok, and had not started\n\
                :\\u{3a}:x ended early\n",
            numbers: "1 failed, 3 errors",
            summary: "1 tests run: 0 passed (0 flaky), 1 failed (0 timed out, 0 crashed), 0 skipped, 0 not run",
            list: "        FAIL :::x ##\\u{5b}group]: ::error::x\n       \
                ERROR  \\u{a}\u{2028}::x ended ok, and had not started\n       \
                ERROR x::y#[ ended ok, and had not started\n       \
                ERROR :::x ended early\n",
            outcome: "failed",
        },
        Case {
            name: "names with control characters",
            lines: r#"{"type":"suite","event":"started","test_count":2}
{"type":"test","event":"started","name":"a\n\u001b[2J\"b"}
{"type":"test","event":"started","name":"\r\t\u0085\u202e"}
{"type":"test","event":"failed","name":"a\n\u001b[2J\"b","message":"left\n\u001b[1Jright\tend\r"}
{"type":"test","event":"failed","name":"\r\t\u0085\u202e"}
{"type":"suite","event":"failed"}
"#,
            notes: "FAIL suite 1 a\\u{a}\\u{1b}[2J\"b\n    left\n    \\u{1b}[1Jright\tend\\u{d}\n\
                FAIL suite 1 \\u{d}\\u{9}\\u{85}\\u{202e}\n    no output was captured\n",
            numbers: "2 failed",
            summary: "2 tests run: 0 passed (0 flaky), 2 failed (0 timed out, 0 crashed), 0 skipped, 0 not run",
            list: "        FAIL suite 1 \\u{d}\\u{9}\\u{85}\\u{202e}: no output was captured\n        \
                FAIL suite 1 a\\u{a}\\u{1b}[2J\"b: left\n",
            outcome: "failed",
        },
    ]);
}
