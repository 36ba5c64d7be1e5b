//! Great numbers, and errors.

use std::error::Error;
use std::rc::Rc;

use crate::common::{SLOW, finish, take};
use deodarsieve_run::{
    Contradiction, CounterFull, Crash, FailureKind, Finish, FinishedTest, Note, RunError, RunStats,
    SuiteNames, TestRun, failed_count, finished_test,
};

/// The greatest number of tests that is read from a line.
const GREATEST: u64 = u32::MAX as u64;

/// A line of a suite of nextest with a number.
fn line_of_suite(event: &str, member: &str, number: u64) -> String {
    format!(
        r#"{{"type":"suite","event":"{event}","{member}":{number},"nextest":{{"crate":"a","test_binary":"a"}}}}"#
    ) + "\n"
}

#[test]
fn numbers_of_lines_are_added_and_never_wrap() {
    let mut run = TestRun::new(SLOW);
    let start = line_of_suite("started", "test_count", GREATEST);
    take(&mut run, &start.repeat(3));
    assert_eq!(run.numbers().announced, 3 * u128::from(GREATEST));
    let notes = take(&mut run, &line_of_suite("ok", "passed", GREATEST).repeat(3));
    let [
        Note::Contradiction(Contradiction::LastLine { said, .. }),
        Note::NotRun(not_run),
        Note::Suite(suite),
    ] = &notes[..]
    else {
        panic!("no test of the suite ran: {notes:?}");
    };
    assert_eq!(said.passed, Some(3 * u128::from(GREATEST)));
    assert_eq!(not_run.not_run, 3 * u128::from(GREATEST));
    assert_eq!(suite.not_run, not_run.not_run);
    let finished = finish(&mut run, None);
    assert_eq!(finished.end.not_run, suite.not_run);
    assert!(matches!(&finished.notes[..], [Note::Suite(outside)] if outside.name.is_none()));
}

#[test]
fn a_number_above_32_bits_is_no_number_of_tests() {
    let mut run = TestRun::new(SLOW);
    take(
        &mut run,
        &line_of_suite("started", "test_count", GREATEST + 1),
    );
    assert_eq!(run.numbers().announced, 0);
}

#[test]
fn the_sum_of_times_stops_at_the_greatest_number() {
    let stray =
        "{\"type\":\"test\",\"event\":\"failed\",\"name\":\"a\",\"exec_time\":999999999.999999}\n";
    let time = 999_999_999_999_999;
    let most = usize::try_from(u64::MAX / time).expect("a run has fewer than 2^32 tests");
    let time_of = |count| {
        let mut run = TestRun::new(SLOW);
        take(&mut run, &stray.repeat(count));
        finish(&mut run, None).end.time
    };
    assert_eq!(time_of(most), Some(most as u64 * time));
    assert_eq!(time_of(most + 1), Some(u64::MAX));
}

#[test]
fn a_full_counter_is_an_error_with_a_text() {
    let error: Box<dyn Error> = Box::new(RunError::from(CounterFull));
    assert_eq!(error.to_string(), CounterFull.to_string());
    assert_eq!(error.downcast_ref(), Some(&RunError::CounterFull));
}

#[test]
fn the_layer_counts_a_test_as_it_finished() {
    let count =
        |finish, attempts, is_slow| -> FinishedTest { finished_test(finish, attempts, is_slow) };
    let mut stats = RunStats::default();
    for test in [
        count(Finish::Passed, 1, true),
        count(Finish::Passed, 2, false),
        count(Finish::FlakyFailed, 2, false),
        count(Finish::Failed, 1, false),
        count(Finish::TimedOut, 1, false),
    ] {
        stats.on_test_view(&test.view());
    }
    assert_eq!(
        (stats.finished_count, stats.passed, failed_count(&stats)),
        (5, 2, 3)
    );
    assert_eq!((stats.passed_slow, stats.flaky), (1, 1));
    assert_eq!((stats.failed, stats.failed_timed_out), (2, 1));
}

#[test]
fn each_kind_of_failure_finishes_a_test_in_one_way() {
    let crash = Crash {
        running: 1,
        has_key: false,
        end: None,
        cause: None,
        prints: Rc::default(),
        last: Vec::new(),
        above: false,
    };
    for (kind, finish) in [
        (FailureKind::Failed, Finish::Failed),
        (FailureKind::WithoutEnd, Finish::Failed),
        (FailureKind::Crashed(crash), Finish::Failed),
        (FailureKind::TimedOut, Finish::TimedOut),
        (FailureKind::Flaky, Finish::FlakyFailed),
    ] {
        assert_eq!(Finish::of_failure(&kind), finish, "{kind:?}");
    }
}

#[test]
fn names_of_suites_can_be_written_for_debugging() {
    assert_eq!(format!("{:?}", SuiteNames::new()), "SuiteNames { .. }");
}
