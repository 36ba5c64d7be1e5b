//! All combinations of a finished test, of the settings of a reporter, and of two outcomes.

use deodarsieve::{
    CancelReason, ExecutionResultDescription, FinalStatusLevel, FlakyResult, RunStats, StatusLevel,
    StatusLevels, TestOutputDisplay, TestView,
};
use deodarsieve_archive::codes::{
    DISPLAYS, FINAL_LEVELS, FLAKY_RESULTS, LEVELS, OUTCOMES, REASONS, code_of, results,
};
use deodarsieve_archive::sys::{self, OK, written};

/// Numbers of attempts. 0 counts as 1.
const ATTEMPTS: [usize; 5] = [0, 1, 2, 3, usize::MAX];

/// Numbers of exit codes, signals and statuses. Signal 15 asks a process to end.
const NUMBERS: [i32; 12] = [i32::MIN, -15, -1, 0, 1, 2, 9, 14, 15, 16, 101, i32::MAX];

/// Returns all pairs of two values.
fn pairs<A: Copy, B: Copy>(first: &[A], second: &[B]) -> Vec<(A, B)> {
    let with = |a: A| second.iter().map(move |b| (a, *b));
    first.iter().flat_map(|a| with(*a)).collect()
}

/// Returns all views of a finished test with this result.
fn views(result: &ExecutionResultDescription) -> Vec<TestView<'_>> {
    let view = |(attempts, (is_slow, flaky_result)): (usize, (bool, FlakyResult))| {
        TestView::new(result)
            .with_attempts(attempts)
            .with_slow(is_slow)
            .with_flaky_result(flaky_result)
    };
    let settings = pairs(&[false, true], &FLAKY_RESULTS);
    pairs(&ATTEMPTS, &settings).into_iter().map(view).collect()
}

/// Compares the counters that a finished test raises from 0, and both its levels.
fn compare_view(view: &TestView<'_>) {
    let (mut stats, mut archived) = (RunStats::default(), sys::RunStats::default());
    stats.on_test_view(view);
    let status = sys::deodarsieve_run_stats_count_test(&mut archived, &view.into());
    assert_eq!(((&stats).into(), OK), (archived, status), "{view:?}");
    let level = code_of(&LEVELS, view.status_level());
    let archived = written(|answer| sys::deodarsieve_test_view_status_level(&view.into(), answer));
    assert_eq!(Ok(level), archived, "{view:?}");
    let level = code_of(&FINAL_LEVELS, view.final_status_level());
    let archived =
        written(|answer| sys::deodarsieve_test_view_final_status_level(&view.into(), answer));
    assert_eq!(Ok(level), archived, "{view:?}");
}

#[test]
fn finished_tests() {
    for result in NUMBERS.into_iter().flat_map(results) {
        views(&result).iter().for_each(compare_view);
    }
}

#[test]
fn results_of_scripts_and_attempts() {
    for result in NUMBERS.into_iter().flat_map(results) {
        let code = sys::UnitResult::from(&result);
        let (mut stats, mut archived) = (RunStats::default(), sys::RunStats::default());
        stats.on_script_result(&result);
        let status = sys::deodarsieve_run_stats_count_script(&mut archived, &code);
        assert_eq!(((&stats).into(), OK), (archived, status), "{result:?}");
        let archived = written(|answer| sys::deodarsieve_result_is_success(&code, answer));
        assert_eq!(Ok(result.is_success()), archived, "{result:?}");
        let archived =
            written(|answer| sys::deodarsieve_result_is_termination_failure(&code, answer));
        assert_eq!(Ok(result.is_termination_failure()), archived, "{result:?}");
    }
}

/// Compares what a reporter does with a finished test of each result.
fn compare_output(
    own: StatusLevels,
    (display, reason): (TestOutputDisplay, Option<CancelReason>),
    (level, final_level): (StatusLevel, FinalStatusLevel),
    results: &[ExecutionResultDescription],
) {
    for result in results {
        let output =
            own.compute_output_on_test_finished(display, reason, level, final_level, result);
        let test = sys::FinishedTest {
            status_level: code_of(&LEVELS, own.status_level),
            final_status_level: code_of(&FINAL_LEVELS, own.final_status_level),
            display: code_of(&DISPLAYS, display),
            cancel_reason: code_of(REASONS, reason),
            test_status_level: code_of(&LEVELS, level),
            test_final_status_level: code_of(&FINAL_LEVELS, final_level),
            result: result.into(),
        };
        let archived =
            written(|answer| sys::deodarsieve_finished_test_compute_output(&test, answer));
        assert_eq!(Ok(output.into()), archived, "{test:?}");
    }
}

#[test]
fn settings_of_a_reporter() {
    let results = results(15);
    let settings = pairs(&DISPLAYS, REASONS);
    let levels = pairs(&LEVELS, &FINAL_LEVELS);
    for ((own, setting), test) in pairs(&pairs(&levels, &settings), &levels) {
        let own = StatusLevels {
            status_level: own.0,
            final_status_level: own.1,
        };
        compare_output(own, setting, test, &results);
    }
}

#[test]
fn two_outcomes() {
    for (outcome, other) in pairs(&OUTCOMES, &OUTCOMES) {
        let combined = code_of(&OUTCOMES, outcome.combine(other));
        let (outcome, other) = (code_of(&OUTCOMES, outcome), code_of(&OUTCOMES, other));
        let archived = written(|answer| sys::deodarsieve_outcome_combine(outcome, other, answer));
        assert_eq!(Ok(combined), archived, "{outcome} {other}");
    }
}
