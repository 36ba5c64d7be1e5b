//! Reports of runs of megabytes, of a test with a megabyte of output, of 2,000 suites one after another, and of
//! 20,000 suites and 20,000 tests that run at once.

use deodarsieve_cli::report::{Files, Format};
use deodarsieve_tests::reports::{OPTIONS, end_of_text, group_text, new_report, write_report};

/// The greatest number of bytes that are shown of the explanation of a failure.
const LIMIT: usize = OPTIONS.limit;

/// Returns the report of a run.
fn reported(input: &str) -> String {
    let mut written = Vec::new();
    let report = new_report(OPTIONS, Format::Text, Files::default());
    write_report(report, input.as_bytes(), &mut written).expect("the numbers fit");
    String::from_utf8(written).expect("the report is UTF-8")
}

/// Returns the end of a report of tests without times that all ran, none of which is flaky, timed out or crashed.
fn end(list: &str, numbers: &str, passed: usize, failed: usize) -> String {
    let run = passed + failed;
    let summary = format!(
        "{run} tests run: {passed} passed (0 flaky), {failed} failed (0 timed out, 0 crashed), 0 skipped, 0 not run"
    );
    let outcome = if failed == 0 { "success" } else { "failed" };
    end_of_text(list, numbers, &summary, outcome)
}

/// Returns the member of a suite's lines that names its binary, as nextest writes it.
fn key_of(number: usize) -> String {
    format!(",\"nextest\":{{\"crate\":\"c\",\"test_binary\":\"b{number}\",\"kind\":\"test\"}}")
}

/// Returns the line that starts a suite of this many tests, with more members.
fn suite_of(tests: usize, more: &str) -> String {
    format!("{{\"type\":\"suite\",\"event\":\"started\",\"test_count\":{tests}{more}}}\n")
}

/// Returns the line that ends a suite, with more members.
fn suite_end(verdict: &str, more: &str) -> String {
    format!("{{\"type\":\"suite\",\"event\":\"{verdict}\"{more}}}\n")
}

/// Returns the line that starts a test.
fn started(name: &str) -> String {
    format!("{{\"type\":\"test\",\"event\":\"started\",\"name\":\"{name}\"}}\n")
}

/// Returns the line that ends a test that passed.
fn ok(name: &str) -> String {
    format!("{{\"type\":\"test\",\"event\":\"ok\",\"name\":\"{name}\"}}\n")
}

/// Returns the line that ends a test that failed and wrote this to standard output.
fn failed(name: &str, stdout: &str) -> String {
    let stdout = stdout.replace('\n', "\\n");
    format!(
        "{{\"type\":\"test\",\"event\":\"failed\",\"name\":\"{name}\",\"stdout\":\"{stdout}\"}}\n"
    )
}

#[test]
fn a_run_of_three_megabytes() {
    let (mut input, mut failures, mut names) = (suite_of(25_000, ""), String::new(), Vec::new());
    for number in 0..25_000 {
        let name = format!("pool::tests::case_{number}");
        input += &started(&name);
        if number % 1_000 == 999 {
            input += &failed(&name, "log\nthread 'a' panicked at b:1:2:\nwhy\n");
            failures += &format!(
                "FAIL suite 1 {name}\n    log\n    thread 'a' panicked at b:1:2:\n    why\n"
            );
            names.push(format!("suite 1 {name}"));
        } else {
            input += &ok(&name);
        }
    }
    input += &suite_end("failed", "");
    assert!(input.len() > 3_000_000);
    let list = group_text("b:1:2: why", names);
    let end = end(&list, "25 failed, 24975 passed", 24_975, 25);
    assert_eq!(reported(&input), failures + &end);
}

/// A line of the output of a test.
const LINE: &str = "read 4096 bytes of a frame\n";

/// Returns the report of a test that failed, with these lines of why it failed.
fn report_of_one(why: &str) -> String {
    let lines: String = why.lines().map(|line| format!("    {line}\n")).collect();
    let list = "        FAIL b:1:2: suite 1 a: why\n";
    format!("FAIL suite 1 a\n{lines}{}", end(list, "1 failed", 0, 1))
}

#[test]
fn a_test_with_a_megabyte_of_output() {
    let message = "thread 'a' panicked at b:1:2:\nwhy\n";
    let half = LIMIT / 2;
    // The front has whole lines. So has the end, and no line feed follows it.
    let front = format!(
        "{message}{}",
        LINE.repeat((half + 1 - message.len()) / LINE.len())
    );
    let end = LINE.repeat((half + 1) / LINE.len());
    let with_end = |after: usize| {
        let shown = (front.len() - message.len() + end.len()) / LINE.len();
        format!("{front}({} lines)\n{end}", after - shown)
    };
    // What is left of the limit has lines before the message.
    let left = (LIMIT + 1 - message.len()) / LINE.len();
    for (before, after, wanted) in [
        (0, 40_000, with_end(40_000)),
        (
            20_000,
            20_000,
            with_end(20_000) + "(20000 more lines of output)\n",
        ),
        (
            40_000,
            0,
            format!(
                "{}{message}({} more lines of output)\n",
                LINE.repeat(left),
                40_000 - left
            ),
        ),
    ] {
        let stdout = format!("{}{message}{}", LINE.repeat(before), LINE.repeat(after));
        assert!(stdout.len() > 1_000_000);
        let input = [
            suite_of(1, ""),
            started("a"),
            failed("a", &stdout),
            suite_end("failed", ""),
        ];
        assert_eq!(
            reported(&input.concat()),
            report_of_one(&wanted),
            "{before} lines before the panic"
        );
    }
}

#[test]
fn two_thousand_suites_one_after_another() {
    let (mut input, mut failures, mut names) = (String::new(), String::new(), Vec::new());
    for number in 1..=2_000 {
        input += &suite_of(2, "");
        input += &started("adds");
        input += &ok("adds");
        input += &started("divides");
        if number % 20 == 0 {
            input += &failed("divides", "thread 'a' panicked at b:1:2:\n");
            input += &suite_end("failed", "");
            failures +=
                &format!("FAIL suite {number} divides\n    thread 'a' panicked at b:1:2:\n");
            names.push(format!("suite {number} divides"));
        } else {
            input += &ok("divides");
            input += &suite_end("ok", "");
        }
    }
    let list = group_text("b:1:2: panicked", names);
    let end = end(&list, "100 failed, 3900 passed", 3_900, 100);
    assert_eq!(reported(&input), failures + &end);
}

#[test]
fn twenty_thousand_suites_side_by_side() {
    let all = || 0..20_000;
    let name = |number| format!("c::b{number}$adds");
    let input: [String; 4] = [
        all().map(|number| suite_of(1, &key_of(number))).collect(),
        all().map(|number| started(&name(number))).collect(),
        all().rev().map(|number| ok(&name(number))).collect(),
        all()
            .map(|number| suite_end("ok", &key_of(number)))
            .collect(),
    ];
    let wanted = end("", "20000 passed", 20_000, 0);
    assert_eq!(reported(&input.concat()), wanted);
}

#[test]
fn twenty_thousand_tests_at_once() {
    let all = || (0..20_000).map(|number| format!("case_{number}"));
    let input = [
        suite_of(20_000, ""),
        all().map(|name| started(&name)).collect(),
        all().map(|name| ok(&name)).collect(),
        suite_end("ok", ""),
    ];
    let wanted = end("", "20000 passed", 20_000, 0);
    assert_eq!(reported(&input.concat()), wanted);
}
