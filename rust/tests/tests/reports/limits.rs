//! What is shown of long texts: the fronts and ends of long lines and of long reasons, and the lines before an
//! explanation.

use crate::reports::{GITHUB, OPTIONS, reported};
use deodarsieve::{FinalStatusLevel, TestOutputDisplay};
use deodarsieve_cli::report::Format;
use deodarsieve_cli::report::options::{Options, OutputDisplay};
use deodarsieve_tests::reports::end_of_text;
use serde_json::{Value, json};

/// What is shown of a panic before its message.
const HEAD: &str = "thread 'a' (7) panicked at src/a.rs:1:2:";

/// Returns the lines of a run whose only test fails, or passes with output.
pub(crate) fn run_of(event: &str, members: Value) -> String {
    let mut end = json!({"type": "test", "event": event, "name": "a"});
    for (name, value) in members.as_object().expect("they are members") {
        end[name] = value.clone();
    }
    format!(
        "{{\"type\":\"suite\",\"event\":\"started\",\"test_count\":1}}\n\
         {{\"type\":\"test\",\"event\":\"started\",\"name\":\"a\"}}\n{end}\n\
         {{\"type\":\"suite\",\"event\":\"{event}\"}}\n"
    )
}

/// Returns the lines under the line of the failed test, and its short reason, in the text of a run with this output.
fn shown_of(output: &str, options: Options) -> (Vec<String>, String) {
    let run = run_of("failed", json!({"stdout": output}));
    let (text, _) = reported(options, Format::Text, &[&run]);
    let lines = text.lines().skip(1);
    let why = lines.map_while(|line| line.strip_prefix("    ").map(str::to_string));
    let listed = text
        .lines()
        .filter(|line| line.starts_with("        FAIL "))
        .find_map(|line| line.split_once("suite 1 a: "));
    let (_, short) = listed.expect("the test is listed");
    (why.collect(), short.to_string())
}

/// Returns options with a limit.
pub(crate) fn limited(limit: usize) -> Options {
    Options { limit, ..OPTIONS }
}

#[test]
fn long_lines() {
    let cut = format!("{} .. 33 bytes .. {}", "x".repeat(384), "x".repeat(96));
    for (size, shown) in [(512, "x".repeat(512)), (513, cut)] {
        let (why, short) = shown_of(&"x".repeat(size), OPTIONS);
        assert_eq!((why, short), (vec![shown.clone()], shown), "{size}");
    }
    // A character is not cut: 191 of two bytes follow a byte, and 47 are before one.
    let line = format!("a{}b", "é".repeat(300));
    let cut = format!("a{} .. 124 bytes .. {}b", "é".repeat(191), "é".repeat(47));
    assert_eq!(shown_of(&line, OPTIONS).0, [cut]);
}

#[test]
fn both_values_are_shown_of_the_first_of_two_panics() {
    let (left, right) = ("1".repeat(2_500), "2".repeat(2_500));
    let first = format!(
        "{}\nassertion failed\n  left: {left}\n right: {right}",
        HEAD.replace("'a'", "'b'")
    );
    let output = format!("{first}\n{HEAD}\nthe thread panicked\n");
    let (why, _) = shown_of(&output, OPTIONS);
    let begins: Vec<&str> = why.iter().map(|line| &line[..10.min(line.len())]).collect();
    let wanted = [
        "thread 'b'",
        "assertion ",
        "  left: 11",
        " right: 22",
        "thread 'a'",
        "the thread",
    ];
    assert_eq!(begins, wanted);
}

#[test]
fn both_values_of_a_long_comparison_are_shown() {
    let value =
        |name: &str, number: u32| format!("{name}: [{}]", format!("{number}, ").repeat(4_000));
    let output = format!(
        "{HEAD}\nassertion failed\n{}\n{}\n",
        value("  left", 1),
        value(" right", 2)
    );
    let (why, _) = shown_of(&output, OPTIONS);
    let begins: Vec<&str> = why.iter().map(|line| &line[..12.min(line.len())]).collect();
    assert_eq!(
        begins,
        [
            "thread 'a' (",
            "assertion fa",
            "  left: [1, ",
            " right: [2, "
        ]
    );
    assert!(why[2].contains(" .. 11530 bytes .. "), "{}", why[2]);
    assert!(why[3].ends_with("2, 2, ]"), "{}", why[3]);
}

/// Returns the JSON of a run, and what it has of its only test.
pub(crate) fn json_of(run: &str, options: Options) -> Value {
    let (text, _) = reported(options, Format::Json, &[run]);
    let mut report: Value = serde_json::from_str(&text).expect("it is JSON");
    report["suites"][0]["tests"][0].take()
}

#[test]
fn lines_are_whole_in_whole_outputs_and_in_json() {
    let (long, short) = ("x".repeat(600), "x".repeat(384));
    let output = format!("{HEAD}\n{long}\n");
    let run = run_of("failed", json!({"stdout": output}));
    let whole = Options {
        output: OutputDisplay::Whole,
        limit: usize::MAX,
        ..OPTIONS
    };
    let (why, listed) = shown_of(&output, whole);
    assert_eq!(why, [HEAD, &long]);
    assert_eq!(listed, long);
    let test = json_of(&run, OPTIONS);
    assert_eq!(test["why"], output.trim_end());
    assert_eq!(test["short"], format!("panicked at src/a.rs:1:2: {long}"));
    assert_eq!(test["output"], output);
    for (format, count) in [
        (Format::Junit, 1),
        (Format::Html, 1),
        (Format::Markdown, 1),
        (GITHUB, 0),
    ] {
        let (text, _) = reported(OPTIONS, format, &[&run]);
        assert_eq!(text.matches(&long).count(), count, "{format:?}");
        let cut = format!("{short} .. 120 bytes .. ");
        assert_eq!(text.matches(&cut).count(), 1, "{format:?}");
    }
}

#[test]
fn json_has_the_lines_that_the_other_forms_have() {
    let long = "x".repeat(600);
    let message = [long.as_str(); 20].join("\n");
    let run = run_of("failed", json!({"message": message}));
    let cut = format!("{} .. 120 bytes .. {}", &long[..384], &long[..96]);
    // Half of the limit holds two lines as the other forms show them, and one whole line.
    let lines = |line: &str| format!("{line}\n{line}\n(16 lines)\n{line}\n{line}");
    let annotations = limited(2_000);
    let (text, _) = reported(OPTIONS, Format::Github { annotations }, &[&run]);
    let message = lines(&cut).replace('\n', "%0A");
    assert!(text.contains(&format!("%0A{message}\n")), "{text}");
    assert_eq!(json_of(&run, limited(2_000))["why"], lines(&long));
    let whole = Options {
        output: OutputDisplay::Whole,
        ..limited(2_000)
    };
    let wanted = format!("{long}\n(18 lines)\n{long}");
    assert_eq!(json_of(&run, whole)["why"], wanted);
}

#[test]
fn the_middle_of_a_long_reason_is_left_out() {
    let message = "1234\n1234\n123456\n1\n123\n12345";
    // Each row has a limit, the number of lines at the front, and the number of those at the end.
    for (limit, front, end) in [
        (message.len(), 6, 0),
        (28, 6, 0),
        (27, 2, 3),
        (20, 2, 2),
        (18, 2, 2),
        (17, 1, 1),
        (8, 1, 1),
        (1, 1, 1),
        (0, 1, 1),
    ] {
        let run = run_of("failed", json!({"message": message}));
        let lines: Vec<&str> = message.split('\n').collect();
        let wanted = match lines.len() - front - end {
            0 => message.to_string(),
            middle => format!(
                "{}\n({middle} line{})\n{}",
                lines[..front].join("\n"),
                if middle == 1 { "" } else { "s" },
                lines[lines.len() - end..].join("\n")
            ),
        };
        assert_eq!(json_of(&run, limited(limit))["why"], wanted, "{limit}");
    }
}

#[test]
fn two_lines_have_no_middle() {
    let run = run_of("failed", json!({"message": "first\nlast"}));
    assert_eq!(json_of(&run, limited(3))["why"], "first\nlast");
}

#[test]
fn what_is_left_of_the_limit_has_lines_before_the_explanation() {
    let output = "one\n\ntwo\r\nError: no money\n";
    for (limit, wanted) in [
        (output.trim_end().len(), "one\n\ntwo\nError: no money"),
        // The blank line would fit, and is left out. It does not count.
        (23, "two\nError: no money\n(1 more line of output)"),
        (20, "two\nError: no money\n(1 more line of output)"),
        (19, "Error: no money\n(2 more lines of output)"),
        (3, "Error: no money\n(2 more lines of output)"),
    ] {
        let run = run_of("failed", json!({"stdout": output}));
        assert_eq!(json_of(&run, limited(limit))["why"], wanted, "{limit}");
    }
    let short = Options {
        output: OutputDisplay::Short,
        ..OPTIONS
    };
    let run = run_of("failed", json!({"stdout": output, "reason": "why"}));
    let wanted = "why\nError: no money\n(2 more lines of output)";
    assert_eq!(json_of(&run, short)["why"], wanted);
    // The reason counts, too.
    assert_eq!(json_of(&run, limited(23))["why"], wanted);
    let wanted = "why\ntwo\nError: no money\n(1 more line of output)";
    assert_eq!(json_of(&run, limited(24))["why"], wanted);
}

#[test]
fn lines_before_two_panics() {
    let last = "thread 'b' (8) panicked at src/b.rs:3:4:\nlast";
    let output = format!("start\n{HEAD}\nfirst\n{}{last}\n", "log\n".repeat(50));
    let run = run_of("failed", json!({"stdout": output}));
    let panics = format!("{HEAD}\nfirst\n..\n{last}");
    let size = panics.len();
    let hidden = "(51 more lines of output)";
    for (limit, wanted) in [
        (
            size + 6,
            format!("start\n{panics}\n(50 more lines of output)"),
        ),
        (size + 5, format!("{panics}\n{hidden}")),
    ] {
        assert_eq!(json_of(&run, limited(limit))["why"], wanted, "{limit}");
    }
}

#[test]
fn the_output_of_a_passed_test() {
    let run = run_of(
        "ok",
        json!({"stdout": format!("1\n2\n3\n{}\n", "x".repeat(600))}),
    );
    let options = Options {
        success_output: TestOutputDisplay::Immediate,
        ..OPTIONS
    };
    let text = |passed_limit| {
        reported(
            Options {
                passed_limit,
                ..options
            },
            Format::Text,
            &[&run],
        )
        .0
    };
    let whole = format!(
        "PASS suite 1 a\n    1\n    2\n    3\n    {}\n1 passed\n---",
        "x".repeat(600)
    );
    assert!(text(usize::MAX).starts_with(&whole), "{}", text(usize::MAX));
    let cut = format!(
        "    {} .. 120 bytes .. {}\n1 passed\n---",
        "x".repeat(384),
        "x".repeat(96)
    );
    let all = format!("PASS suite 1 a\n    1\n    2\n    3\n{cut}");
    assert!(text(600).starts_with(&all), "{}", text(600));
    let middle = format!("PASS suite 1 a\n    1\n    2\n    (1 line)\n{cut}");
    assert!(text(6).starts_with(&middle), "{}", text(6));
}

#[test]
fn the_end_of_a_crash_is_in_its_short_reason() {
    for (cause, end) in [
        (
            "process didn't exit successfully: `a (b)` (signal: 6, SIGABRT: process abort signal)",
            " (signal: 6, SIGABRT)",
        ),
        (
            "process didn't exit successfully: `a` (exit status: 7)",
            " (status 7)",
        ),
        (
            "process didn't exit successfully: `a` (signal: 40)\r",
            " (signal: 40)",
        ),
        ("could not execute process `a` (never executed)", ""),
        (
            "process didn't exit successfully: `a` (signal: 6, SIGABRT: process",
            "",
        ),
    ] {
        let run = format!(
            "{{\"type\":\"suite\",\"event\":\"started\",\"test_count\":1}}\n\
             {{\"type\":\"test\",\"event\":\"started\",\"name\":\"a\"}}\n\
             {HEAD}\nno money\nerror: test failed, to rerun pass `--lib`\n\nCaused by:\n  {cause}\n"
        );
        let words = "its process ended before it did";
        let wanted = format!("{words}{end}: panicked at src/a.rs:1:2: no money");
        assert_eq!(json_of(&run, OPTIONS)["short"], wanted, "{cause}");
    }
}

#[test]
fn the_place_of_a_documentation_test() {
    let place = json!({"file": "cart/src/lib.rs", "line": "12"});
    for (head, wanted) in [
        (
            "cart/src/lib.rs:3:1:",
            "panicked at cart/src/lib.rs:12: why",
        ),
        (
            "/t/rustdoctestENSibD/doctest_bundle_2024.rs:14:1:",
            "panicked at cart/src/lib.rs:12: why",
        ),
        (
            "t/rustdoctestENSibD/doctest_bundle_2024.rs:14:1:",
            "panicked at cart/src/lib.rs:12: why",
        ),
        // The function that the test calls has panicked.
        (
            "cart/src/money.rs:40:9:",
            "cart/src/lib.rs:12: panicked at cart/src/money.rs:40:9: why",
        ),
        // The panics of old toolchains have another form, so their place may be in any file.
        (
            "'why', cart/src/lib.rs:3:1",
            "cart/src/lib.rs:12: panicked at 'why', cart/src/lib.rs:3:1",
        ),
    ] {
        let output =
            format!("Test executable failed.\n\nthread 'main' (7) panicked at {head}\nwhy\n");
        let mut run = run_of("failed", json!({"stdout": output}));
        run = run.replace(
            "\"name\":\"a\"",
            "\"name\":\"cart/src/lib.rs - add (line 12)\"",
        );
        let test = json_of(&run, OPTIONS);
        assert_eq!(test["short"], wanted, "{head}");
        assert_eq!(test["place"], place, "{head}");
    }
}

#[test]
fn a_temporary_file_of_rustdoc_is_no_place() {
    let output =
        "thread 'main' (7) panicked at t/rustdoctestENSibD/doctest_bundle_2024.rs:14:1:\nwhy\n";
    let run = run_of("failed", json!({"stdout": output}));
    assert_eq!(json_of(&run, OPTIONS)["place"], Value::Null);
}

#[test]
fn contradictions_are_listed_like_failed_tests() {
    let run = "{\"type\":\"suite\",\"event\":\"started\",\"test_count\":2}\n";
    let summary =
        "0 tests run: 0 passed (0 flaky), 0 failed (0 timed out, 0 crashed), 0 skipped, 2 not run";
    let lines = "suite 1 ended early\nsuite 1: 2 of 2 tests were not run\n";
    for (final_status_level, listed) in [
        (FinalStatusLevel::None, ""),
        (FinalStatusLevel::Fail, "       ERROR suite 1 ended early\n"),
        (FinalStatusLevel::All, "       ERROR suite 1 ended early\n"),
    ] {
        let options = Options {
            final_status_level,
            ..OPTIONS
        };
        let (text, _) = reported(options, Format::Text, &[run]);
        let end = end_of_text(listed, "1 error, 2 not run", summary, "failed");
        assert_eq!(text, [lines, &end].concat());
    }
}

#[test]
fn long_lines_of_what_explains_a_failure_of_cargo() {
    let long = "x".repeat(600);
    let run = format!(
        "error[E0308]: {long}\nerror: could not compile `a` (lib) due to 1 previous error\n"
    );
    let shown = format!(
        "error[E0308]: {} .. 134 bytes .. {}",
        "x".repeat(370),
        "x".repeat(96)
    );
    for format in [
        Format::Text,
        GITHUB,
        Format::Junit,
        Format::Html,
        Format::Markdown,
    ] {
        let (text, _) = reported(OPTIONS, format, &[&run]);
        assert_eq!(text.matches(&shown).count(), 1, "{format:?}");
    }
    let (text, _) = reported(OPTIONS, Format::Json, &[&run]);
    assert!(
        text.contains(&format!("\"error[E0308]: {long}\"")),
        "{text}"
    );
}
