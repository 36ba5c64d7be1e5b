//! What decides the outcome and the exit status: tests, files, and the end of a command.

use std::collections::VecDeque;

use crate::common::{SLOW, finish, take};
use crate::note_lines::{lines_of, read};
use deodarsieve_run::{
    CancelReason, CommandEnd, Note, RunFailureStep, RunNumbers, RunOutcome, SuiteNames, TestRun,
    exit_status,
};

/// The outcome of a run that failed.
const FAILED: RunOutcome = RunOutcome::Failed {
    step: RunFailureStep::Test,
};

/// A suite in which one test passes.
const PASSING: &str = r#"{ "type": "suite", "event": "started", "test_count": 1 }
{ "type": "test", "event": "started", "name": "adds" }
{ "type": "test", "name": "adds", "event": "ok", "exec_time": 0.25 }
{ "type": "suite", "event": "ok", "passed": 1, "failed": 0, "exec_time": 0.5 }
"#;

/// A suite in which one test fails.
const FAILING: &str = r#"{ "type": "suite", "event": "started", "test_count": 1 }
{ "type": "test", "event": "started", "name": "adds" }
{ "type": "test", "name": "adds", "event": "failed" }
{ "type": "suite", "event": "failed", "passed": 0, "failed": 1 }
"#;

/// A suite in which each test is ignored.
const IGNORED: &str = r#"{ "type": "suite", "event": "started", "test_count": 1 }
{ "type": "test", "event": "started", "name": "adds" }
{ "type": "test", "name": "adds", "event": "ignored" }
{ "type": "suite", "event": "ok", "passed": 0, "failed": 0, "ignored": 1 }
"#;

/// A suite of two tests. One passed, and the other never started.
const NOT_ALL: &str = r#"{ "type": "suite", "event": "started", "test_count": 2 }
{ "type": "test", "event": "started", "name": "adds" }
{ "type": "test", "name": "adds", "event": "ok" }
{ "type": "suite", "event": "ok", "passed": 1, "failed": 0 }
"#;

/// Reads the output of a command that ended in this way.
fn read_command(text: &str, end: CommandEnd) -> (Vec<Note>, RunOutcome, u8) {
    let mut run = TestRun::new(SLOW);
    run.on_command_started(SuiteNames::new());
    let mut notes = take(&mut run, text);
    let finished = finish(&mut run, Some(end));
    notes.extend(finished.notes);
    (notes, finished.end.outcome, finished.status)
}

#[test]
fn there_are_four_outcomes() {
    let cancelled = RunOutcome::Cancelled {
        step: RunFailureStep::Test,
    };
    for (text, outcome, status) in [
        (PASSING, RunOutcome::Success, 0),
        (FAILING, FAILED, 1),
        (NOT_ALL, cancelled, 1),
        (IGNORED, RunOutcome::NoTestsRun, 1),
    ] {
        let (_, finished) = read(text);
        assert_eq!(
            (finished.end.outcome, finished.status),
            (outcome, status),
            "{text}"
        );
        assert_eq!(exit_status(outcome, false), status);
    }
}

#[test]
fn only_a_run_without_tests_can_be_let_pass() {
    for (text, status) in [(PASSING, 0), (FAILING, 1), (NOT_ALL, 1), (IGNORED, 0)] {
        let mut run = TestRun::new(SLOW);
        take(&mut run, text);
        let finished = run.finish(None, true).expect("the counters have room");
        assert_eq!(finished.status, status, "{text}");
        assert_eq!(exit_status(finished.end.outcome, true), status);
    }
}

#[test]
fn an_empty_run_has_no_event() {
    let (notes, finished) = read("");
    assert_eq!(lines_of(&notes), ["no event in None"]);
    assert_eq!((finished.end.outcome, finished.status), (FAILED, 1));
}

#[test]
fn two_files_are_one_run_and_a_file_without_events_is_named() {
    let names = ["first.jsonl", "second.jsonl", "third.jsonl"];
    let mut run = TestRun::with_file_names(SLOW, VecDeque::from(names.map(String::from)));
    take(&mut run, PASSING);
    assert!(lines_of(&run.end_file().expect("the counters have room")).is_empty());
    take(&mut run, "no line of a harness\n");
    let notes = run.end_file().expect("the counters have room");
    assert_eq!(lines_of(&notes), ["no event in Some(\"second.jsonl\")"]);
    take(&mut run, FAILING);
    let finished = finish(&mut run, None);
    assert!(lines_of(&finished.notes).is_empty());
    let stats = finished.end.stats;
    assert_eq!(
        (stats.finished_count, stats.passed, stats.failed),
        (2, 1, 1)
    );
    assert_eq!(finished.end.time, Some(500_000));
    assert_eq!((finished.end.outcome, finished.status), (FAILED, 1));
}

#[test]
fn a_suite_ends_with_its_file() {
    let mut run = TestRun::new(SLOW);
    take(
        &mut run,
        r#"{ "type": "suite", "event": "started", "test_count": 1 }"#,
    );
    take(
        &mut run,
        r#"{ "type": "test", "event": "started", "name": "adds" }"#,
    );
    let notes = run.end_file().expect("the counters have room");
    assert_eq!(
        lines_of(&notes),
        [
            "suite 1: adds crashed, 1 of 1",
            "suite 1 is over: 0 passed, 1 failed, 0 skipped, 0 not run",
        ]
    );
    let notes = take(
        &mut run,
        r#"{ "type": "test", "name": "adds", "event": "ok" }"#,
    );
    assert_eq!(lines_of(&notes), ["stray end of adds: Ok"]);
    assert_eq!(run.end().stats.failed, 1);
}

#[test]
fn the_end_of_a_command_is_part_of_the_run() {
    let signal = CommandEnd::Signal { number: 9 };
    let (notes, outcome, status) = read_command(PASSING, signal);
    assert_eq!(
        lines_of(&notes).last().map(String::as_str),
        Some("ended by signal 9")
    );
    assert_eq!((outcome, status), (FAILED, 1));

    let not_started = CommandEnd::NotStarted {
        error: String::from("no such program"),
    };
    let (notes, outcome, status) = read_command("", not_started);
    assert_eq!(lines_of(&notes), ["not started: no such program"]);
    assert_eq!((outcome, status), (FAILED, 1));

    let (notes, outcome, _) = read_command(PASSING, CommandEnd::Status { code: 101 });
    assert_eq!(
        lines_of(&notes).last().map(String::as_str),
        Some("ended with status 101")
    );
    assert_eq!(outcome, FAILED);
}

#[test]
fn a_status_that_a_failed_test_explains_is_no_contradiction() {
    let (notes, outcome, status) = read_command(FAILING, CommandEnd::Status { code: 101 });
    assert_eq!(
        lines_of(&notes),
        [
            "suite 1: adds failed",
            "suite 1 is over: 0 passed, 1 failed, 0 skipped, 0 not run",
        ]
    );
    assert_eq!((outcome, status), (FAILED, 1));
}

#[test]
fn a_failure_of_cargo_is_a_print_if_the_command_ended_with_status_0() {
    let text = format!("error: test failed, to rerun pass `--lib`\n{PASSING}");
    let (notes, outcome, status) = read_command(&text, CommandEnd::Status { code: 0 });
    assert!(
        !lines_of(&notes)
            .iter()
            .any(|line| line.starts_with("cargo"))
    );
    assert_eq!((outcome, status), (RunOutcome::Success, 0));

    let (notes, outcome, _) = read_command(&text, CommandEnd::Status { code: 1 });
    assert!(lines_of(&notes).contains(&String::from(
        "cargo: error: test failed, to rerun pass `--lib`"
    )));
    assert_eq!(outcome, FAILED);
}

#[test]
fn a_suite_has_the_name_that_is_known_of_its_path() {
    let heading = "     Running tests/it.rs (target/debug/deps/it-0000000000000000)\n";
    let mut names = SuiteNames::default();
    names.insert(
        String::from("target/debug/deps/it-0000000000000000"),
        String::from("ledger::it"),
    );
    let mut run = TestRun::new(SLOW);
    run.on_command_started(names);
    let notes = take(&mut run, &format!("{heading}{PASSING}"));
    assert_eq!(
        lines_of(&notes),
        [
            "ledger::it: adds [250000 us] passed",
            "ledger::it is over: 1 passed, 0 failed, 0 skipped, 0 not run",
        ]
    );
    let notes = take(&mut TestRun::new(SLOW), &format!("{heading}{PASSING}"));
    assert_eq!(
        lines_of(&notes)[0],
        "it (tests/it.rs): adds [250000 us] passed"
    );
}

#[test]
fn a_cancelled_run_says_so_in_later_notes_only() {
    let mut run = TestRun::new(SLOW);
    let mut notes = take(&mut run, PASSING);
    run.on_cancelled(CancelReason::Interrupt);
    notes.extend(take(&mut run, PASSING));
    let reasons: Vec<_> = notes
        .iter()
        .filter_map(|note| match note {
            Note::Test(test) => Some(test.cancel),
            _ => None,
        })
        .collect();
    assert_eq!(reasons, [None, Some(CancelReason::Interrupt)]);
    assert_eq!(finish(&mut run, None).end.outcome, RunOutcome::Success);
}

#[test]
fn a_test_is_slow_from_a_time_on_or_if_nextest_says_so() {
    let slow_of = |slow, text: &str| {
        let notes = take(&mut TestRun::new(slow), text);
        let Some(Note::Test(test)) = notes.into_iter().find(|note| matches!(note, Note::Test(_)))
        else {
            panic!("a test ended");
        };
        test.slow
    };
    assert!(slow_of(250_000, PASSING));
    assert!(!slow_of(250_001, PASSING));
    let timeout = r#"{"type":"test","event":"timeout","name":"adds"}"#;
    let (start, rest) = PASSING.split_at(
        PASSING
            .find("{ \"type\": \"test\", \"name\"")
            .expect("a test ends"),
    );
    assert!(slow_of(SLOW, &format!("{start}{timeout}\n{rest}")));
}

#[test]
fn the_progress_of_a_run_is_known_after_each_line() {
    let mut run = TestRun::new(SLOW);
    assert_eq!((run.has_suite(), run.tests_started()), (false, 0));
    assert!(run.first_running().is_none());
    take(
        &mut run,
        r#"{ "type": "suite", "event": "started", "test_count": 3 }
{ "type": "test", "event": "started", "name": "adds" }
{ "type": "test", "event": "started", "name": "divides" }
{ "type": "test", "name": "adds", "event": "failed" }
"#,
    );
    assert_eq!((run.has_suite(), run.tests_started()), (true, 2));
    let numbers = RunNumbers {
        ended: 1,
        failed: 1,
        announced: 3,
    };
    assert_eq!(run.numbers(), numbers);
    let first = run.first_running().expect("a test is running");
    assert_eq!(
        (first.suite, first.name, first.order),
        (Some("suite 1"), "divides", 1)
    );
    assert_eq!(
        format!("{run:?}"),
        format!("TestRun {{ numbers: {numbers:?}, .. }}")
    );
}
