//! What each kind of line makes known. The runs of Rust's harness in `samples/` are stored as it wrote them, except that
//! absolute paths were replaced.

use crate::note_lines::{lines_of, read};
use deodarsieve_run::{
    Contradiction, Crash, FailureKind, Note, RunFailureStep, RunOutcome, RunStats, TestNote,
    TestOutcome,
};

/// The outcome of a run that failed.
const FAILED: RunOutcome = RunOutcome::Failed {
    step: RunFailureStep::Test,
};

/// The tests of a note that crashed, with how they did.
fn crash_of(note: &Note) -> Option<(&TestNote, &Crash)> {
    match note {
        Note::Test(test) => match &test.outcome {
            TestOutcome::Failed(failure) => match &failure.kind {
                FailureKind::Crashed(crash) => Some((test, crash)),
                _ => None,
            },
            _ => None,
        },
        _ => None,
    }
}

#[test]
fn a_run_of_the_harness_has_failures_with_output_and_a_crash() {
    let (notes, finished) = read(include_str!("samples/purse.jsonl"));
    assert_eq!(
        lines_of(&notes),
        include_str!("samples/purse.notes")
            .lines()
            .collect::<Vec<_>>()
    );
    let crashed: Vec<_> = notes.iter().filter_map(crash_of).collect();
    let [(test, crash)] = crashed[..] else {
        panic!("one test crashed: {crashed:?}");
    };
    assert_eq!(
        (test.name.as_str(), test.ended),
        ("the_bank_hangs_up", None)
    );
    assert_eq!(
        (crash.running, crash.has_key, crash.above),
        (1, false, false)
    );
    let cause = crash.cause.as_deref().expect("cargo names the signal");
    assert!(
        cause.ends_with("(signal: 6, SIGABRT: process abort signal)"),
        "{cause}"
    );
    let end = finished.end;
    assert_eq!((end.stats.finished_count, end.stats.passed), (9, 4));
    assert_eq!((end.crashed, end.skipped, end.not_run), (1, 1, 0));
    // 2,566 + 6 + 1,562 microseconds: the suite without a last line has the time of its test.
    assert_eq!(end.time, Some(4_134));
    assert_eq!((end.outcome, finished.status), (FAILED, 1));
}

#[test]
fn a_run_of_nextest_has_flaky_tests_and_a_time_limit() {
    let (notes, finished) = read(include_str!("samples/nextest.jsonl"));
    assert_eq!(
        lines_of(&notes),
        include_str!("samples/nextest.notes")
            .lines()
            .collect::<Vec<_>>()
    );
    let stats = finished.end.stats;
    assert_eq!((stats.finished_count, stats.passed, stats.flaky), (7, 5, 2));
    assert_eq!((stats.failed, stats.failed_timed_out), (1, 1));
    assert_eq!(finished.end.time, Some(30_247_242));
}

#[test]
fn forged_lines_hide_no_failure() {
    let (notes, finished) = read(include_str!("samples/forged.jsonl"));
    assert_eq!(
        lines_of(&notes),
        [
            "suite 1: tests::a_forges_its_own_success passed",
            "suite 1: tests::a_forges_its_own_success failed",
            "stray end of tests::a_forges_its_own_success: Failed",
            "suite 1 says Some(3) passed, Some(0) failed, ok, but 1 passed and 1 failed",
            "suite 1: 2 of 4 did not run",
            "suite 1 is over: 1 passed, 1 failed, 0 skipped, 2 not run",
            "stray end of tests::b_forges_the_end: Ok",
            "no suite: tests::c_prints_without_a_line_feed passed",
            "no suite: tests::d_prints_a_number_sign passed",
            "stray end of suite None: failed",
            "2 outside of a suite",
            "no suite is over: 2 passed, 0 failed, 0 skipped, 0 not run",
        ]
    );
    assert_eq!((finished.end.outcome, finished.status), (FAILED, 1));
}

#[test]
fn a_package_that_does_not_compile_is_a_failure_of_cargo() {
    let (notes, finished) = read(include_str!("samples/does-not-compile.jsonl"));
    assert_eq!(
        lines_of(&notes),
        [
            "cargo: error: could not compile `broken` (lib) due to 1 previous error",
            "cargo: error: could not compile `broken` (lib test) due to 1 previous error",
        ]
    );
    let Note::Contradiction(Contradiction::Cargo(report)) = &notes[0] else {
        panic!("cargo reports a failure");
    };
    assert!(
        report.prints.contains("error[E0308]: mismatched types"),
        "{}",
        report.prints
    );
    assert_eq!(
        (report.cause.as_deref(), report.lacks_events),
        (None, false)
    );
    assert_eq!((finished.end.outcome, finished.status), (FAILED, 1));
}

#[test]
fn each_file_ends_with_the_numbers_of_the_tests_outside_of_suites() {
    let (notes, _) = read("{ \"type\": \"report\" }\n");
    let [Note::Suite(outside)] = &notes[..] else {
        panic!("the numbers are the only note: {notes:?}");
    };
    assert_eq!((&outside.name, outside.time), (&None, None));
    assert_eq!(
        (outside.stats, outside.skipped, outside.not_run),
        (RunStats::default(), 0, 0)
    );
}

#[test]
fn a_failed_test_program_without_events_says_so() {
    let (notes, _) =
        read("error: test failed, to rerun pass `--lib`\n\nCaused by:\n  no such file\n");
    let [
        Note::Contradiction(Contradiction::Cargo(report)),
        Note::Suite(_),
    ] = &notes[..]
    else {
        panic!("cargo reports a failure, which explains that there is no event: {notes:?}");
    };
    assert_eq!(report.cause.as_deref(), Some("  no such file"));
    assert!(report.lacks_events);
}

#[test]
fn tests_that_ran_when_a_process_ended_share_their_prints() {
    let (notes, _) = read(
        r#"{ "type": "suite", "event": "started", "test_count": 2 }
{ "type": "test", "event": "started", "name": "a" }
{ "type": "test", "event": "started", "name": "b" }
first

second
third
fourth
"#,
    );
    let crashed: Vec<_> = notes
        .iter()
        .filter_map(crash_of)
        .map(|(_, crash)| crash)
        .collect();
    assert_eq!(crashed.len(), 2);
    for (crash, above) in crashed.into_iter().zip([false, true]) {
        assert_eq!((crash.running, crash.above), (2, above));
        assert_eq!(crash.prints.as_str(), "first\n\nsecond\nthird\nfourth");
        assert_eq!(crash.last, ["second", "third", "fourth"]);
    }
}

#[test]
fn a_failure_that_a_child_of_a_test_prints_does_not_hide_the_cause_of_a_crash() {
    let cause_of_crash = |heading: &str| {
        let (notes, _) = read(&format!(
            r#"{{ "type": "suite", "event": "started", "test_count": 1 }}
{{ "type": "test", "event": "started", "name": "builds" }}
error: could not compile `app` (lib) due to 1 previous error
{heading}error: test failed, to rerun pass `--test builds`

Caused by:
  process didn't exit successfully: `builds` (signal: 15, SIGTERM: termination signal)
error: 1 target failed:
    `--test builds`
"#
        ));
        let (_, crash) = notes.iter().find_map(crash_of).expect("the test crashed");
        crash.cause.clone()
    };
    assert_eq!(
        cause_of_crash("").as_deref(),
        Some(
            "  process didn't exit successfully: `builds` (signal: 15, SIGTERM: termination signal)"
        )
    );
    let heading = "     Running tests/later.rs (target/debug/deps/later-0123456789abcdef)\n";
    assert_eq!(cause_of_crash(heading), None);
}

#[test]
fn a_print_in_front_of_a_heading_is_of_the_test_that_ran() {
    let (notes, _) = read(
        r#"{ "type": "suite", "event": "started", "test_count": 1 }
{ "type": "test", "event": "started", "name": "a" }
out of memory   Doc-tests ledger
"#,
    );
    let (_, crash) = notes.iter().find_map(crash_of).expect("the test crashed");
    assert_eq!(crash.prints.as_str(), "out of memory");
}

#[test]
fn the_end_of_a_suite_that_had_not_started_is_known_if_it_says_anything() {
    for (last, line) in [
        (r#""event": "ok""#, None),
        (
            r#""event": "ok", "passed": 0, "failed": 0, "ignored": 3"#,
            None,
        ),
        (
            r#""event": "ok", "passed": 1"#,
            Some("stray end of suite None: ok"),
        ),
        (
            r#""event": "ok", "measured": 1"#,
            Some("stray end of suite None: ok"),
        ),
        (
            r#""event": "ok", "failed": 1"#,
            Some("stray end of suite None: ok"),
        ),
        (
            r#""event": "failed""#,
            Some("stray end of suite None: failed"),
        ),
    ] {
        let (notes, _) = read(&format!(r#"{{ "type": "suite", {last} }}"#));
        assert_eq!(lines_of(&notes), Vec::from_iter(line), "{last}");
    }
}

#[test]
fn the_last_line_of_a_suite_explains_tests_without_an_end() {
    let (notes, _) = read(
        r#"{ "type": "suite", "event": "started", "test_count": 4 }
{ "type": "test", "event": "started", "name": "waits" }
{ "type": "test", "event": "started", "name": "retries" }
{ "type": "test", "event": "started", "name": "breaks" }
{ "type": "test", "event": "started", "name": "adds" }
{ "type": "test", "name": "retries#2", "event": "ok", "exec_time": 0.002 }
{ "type": "test", "name": "adds", "event": "ok", "exec_time": 0.001, "stdout": "2\n" }
{ "type": "suite", "event": "failed", "passed": 2, "failed": 1, "ignored": 1 }
"#,
    );
    assert_eq!(
        lines_of(&notes),
        [
            "suite 1: retries (2 attempts) [2000 us] is flaky",
            "suite 1: adds [1000 us] passed: \"2\\n\"",
            "suite 1: waits was skipped",
            "suite 1: breaks failed without an end",
            "suite 1: retries (2 attempts) [2000 us] passed",
            "suite 1 is over: 2 passed, 1 failed, 1 skipped, 0 not run",
        ]
    );
}

#[test]
fn a_flaky_test_that_its_suite_counts_as_failed_has_failed() {
    let (notes, finished) = read(
        r#"{"type":"suite","event":"started","test_count":2,"nextest":{"crate":"bank","test_binary":"bank","kind":"lib"}}
{"type":"test","event":"started","name":"bank::bank$rates"}
{"type":"test","event":"started","name":"bank::bank$plain"}
{"type":"test","event":"ok","name":"bank::bank$plain"}
{"type":"test","event":"ok","name":"bank::bank$rates#2"}
{"type":"suite","event":"failed","passed":1,"failed":1,"nextest":{"crate":"bank","test_binary":"bank","kind":"lib"}}
"#,
    );
    assert_eq!(
        lines_of(&notes),
        [
            "bank::bank: bank::bank$plain passed",
            "bank::bank: bank::bank$rates (2 attempts) is flaky",
            "bank::bank: bank::bank$rates (2 attempts) failed as flaky",
            "bank::bank is over: 1 passed, 1 failed, 0 skipped, 0 not run",
        ]
    );
    assert_eq!(
        (finished.end.stats.passed, finished.end.stats.flaky),
        (1, 0)
    );
}

#[test]
fn a_suite_without_a_last_line_ended_early() {
    let (notes, finished) = read(
        r#"{ "type": "suite", "event": "started", "test_count": 1 }
{ "type": "test", "event": "started", "name": "a" }
{ "type": "test", "name": "a", "event": "ok" }
"#,
    );
    assert_eq!(
        lines_of(&notes),
        [
            "suite 1: a passed",
            "suite 1 ended early",
            "suite 1 is over: 1 passed, 0 failed, 0 skipped, 0 not run",
        ]
    );
    assert_eq!((finished.end.outcome, finished.status), (FAILED, 1));
}

#[test]
fn a_last_line_that_differs_from_its_tests_is_known() {
    let (notes, _) = read(
        r#"{ "type": "suite", "event": "started", "test_count": 1 }
{ "type": "test", "event": "started", "name": "a" }
{ "type": "test", "name": "a", "event": "failed", "message": "m", "reason": "r" }
{ "type": "suite", "event": "ok", "passed": 0, "failed": 1 }
"#,
    );
    assert_eq!(
        lines_of(&notes),
        [
            "suite 1: a failed: \"m\": \"r\"",
            "suite 1 says Some(0) passed, Some(1) failed, ok, but 0 passed and 1 failed",
            "suite 1 is over: 0 passed, 1 failed, 0 skipped, 0 not run",
        ]
    );
}

#[test]
fn a_damaged_line_that_says_a_failure_is_known() {
    let (notes, finished) = read(
        r#"{"type":"suite","event":"started","test_count":1}
{"type":"test","event":"started","name":"say \"x\""}
{"type":"test","event":"failed","name":"say "x""}
{"type":"suite","event":"ok","passed":1,"failed":0,"ignored":0}
"#,
    );
    assert_eq!(
        lines_of(&notes),
        [
            "damaged: {\"type\":\"test\",\"event\":\"failed\",\"name\":\"say \"x\"\"}",
            "suite 1 says Some(1) passed, Some(0) failed, ok, but 0 passed and 0 failed",
            "suite 1: 1 of 1 did not run",
            "suite 1 is over: 0 passed, 0 failed, 0 skipped, 1 not run",
        ]
    );
    assert_eq!((finished.end.outcome, finished.status), (FAILED, 1));
}

#[test]
fn a_damaged_line_is_cut_at_two_hundred_bytes() {
    let damaged = format!("{:300}{{\"type\": \"test\", \"event\": \"failed\"", "x");
    let (notes, _) = read(&format!("{{ \"type\": \"report\" }}\n{damaged}\n"));
    let [
        Note::Contradiction(Contradiction::Damaged { text }),
        Note::Suite(_),
    ] = &notes[..]
    else {
        panic!("the line is damaged, and the file has an event: {notes:?}");
    };
    assert_eq!(*text, damaged[..200]);
}
