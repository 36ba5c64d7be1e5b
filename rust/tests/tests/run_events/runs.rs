//! Whole runs.

use deodarsieve::{
    CancelReason, ExecutionResult, ExecutionStatuses, FinishedRun, FinishedUnit, FlakyResult,
    LiveSpec, RunFailureStep, RunOutcome, RunStart, RunStats, StatusLevel,
};
use deodarsieve_tests::fixtures::{
    EXEC_FAIL, EXIT_ONE, LEAK_FAIL, LEAK_PASS, PASS, TIMEOUT_FAIL, TIMEOUT_PASS, finished_script,
    finished_test,
};

/// Returns the start of a run of this many tests, with this reason.
fn start_of(initial_run_count: usize, cancel_reason: Option<CancelReason>) -> RunStart {
    RunStart {
        initial_run_count,
        setup_scripts_initial_count: 0,
        skipped: 0,
        cancel_reason,
    }
}

/// The counters of a run of a flaky test, a slow test that failed, a test that timed out, a test
/// that could not be executed, and two setup scripts.
fn counted(start: RunStart) -> RunStats {
    let flaky = finished_test(&[EXIT_ONE, EXIT_ONE], PASS, true, FlakyResult::Pass);
    let slow = finished_test(&[], EXIT_ONE, true, FlakyResult::Pass);
    let lost = finished_test(&[PASS], TIMEOUT_FAIL, true, FlakyResult::Pass);
    let unrun = finished_test(&[], EXEC_FAIL, false, FlakyResult::Pass);
    let set_up = finished_script(LEAK_PASS);
    let broken = finished_script(LEAK_FAIL);
    let units = [
        FinishedUnit::Test(&unrun),
        FinishedUnit::Script(&set_up),
        FinishedUnit::Test(&slow),
        FinishedUnit::Test(&flaky),
        FinishedUnit::Script(&broken),
        FinishedUnit::Test(&lost),
    ];
    RunStats::of_run(&units, start)
}

#[test]
fn a_run_counts_units_of_both_kinds() {
    let start = RunStart {
        setup_scripts_initial_count: 2,
        skipped: 3,
        ..start_of(5, Some(CancelReason::Signal))
    };
    let wanted = RunStats {
        initial_run_count: 5,
        finished_count: 4,
        setup_scripts_initial_count: 2,
        setup_scripts_finished_count: 2,
        setup_scripts_passed: 1,
        setup_scripts_failed: 1,
        passed: 1,
        passed_slow: 1,
        flaky: 1,
        failed: 1,
        failed_slow: 1,
        failed_timed_out: 1,
        exec_failed: 1,
        skipped: 3,
        cancel_reason: Some(CancelReason::Signal),
        ..RunStats::default()
    };
    assert_eq!(counted(start), wanted);
}

#[test]
fn a_run_without_units_counts_nothing() {
    assert_eq!(
        RunStats::of_run(&[], start_of(0, None)),
        RunStats::default()
    );
}

/// Returns true if the level of a test is `Fail` if and only if the test counts as failed.
fn agree(test: &ExecutionStatuses<LiveSpec>) -> bool {
    let stats = RunStats::of_run(&[FinishedUnit::Test(test)], start_of(0, None));
    let fails = test.describe().status_level() == StatusLevel::Fail;
    stats.failed_count() == usize::from(fails) && stats.has_failures() == fails
}

/// Returns true if they agree for a test with this last result after these attempts, slow or not,
/// with each setting for flaky tests.
fn agree_on(earlier: &[ExecutionResult], last: ExecutionResult) -> bool {
    [FlakyResult::Pass, FlakyResult::Fail]
        .iter()
        .flat_map(|setting| [(*setting, false), (*setting, true)])
        .all(|(setting, is_slow)| agree(&finished_test(earlier, last, is_slow, setting)))
}

#[test]
fn the_level_is_fail_if_and_only_if_the_test_counts_as_failed() {
    for last in [
        PASS,
        LEAK_PASS,
        LEAK_FAIL,
        EXIT_ONE,
        EXEC_FAIL,
        TIMEOUT_FAIL,
        TIMEOUT_PASS,
    ] {
        assert!(agree_on(&[], last), "{last:?} at once");
        assert!(agree_on(&[EXIT_ONE], last), "{last:?} at last");
    }
}

/// The outcomes of a run that passed, of a cancelled one, and of all four runs: of one that passed,
/// one that failed, a cancelled one and one without tests.
fn outcomes() -> [RunOutcome; 3] {
    let passed = finished_test(&[], PASS, false, FlakyResult::Pass);
    let failed = finished_test(&[], EXIT_ONE, false, FlakyResult::Pass);
    let passes = [FinishedUnit::Test(&passed)];
    let fails = [FinishedUnit::Test(&failed)];
    // The failed run is neither the first nor the last. Counted as one run, the runs would be
    // cancelled.
    let runs = [
        FinishedRun {
            units: &passes,
            start: start_of(1, None),
        },
        FinishedRun {
            units: &fails,
            start: start_of(1, None),
        },
        FinishedRun {
            units: &passes,
            start: start_of(2, Some(CancelReason::Interrupt)),
        },
        FinishedRun {
            units: &[],
            start: start_of(0, None),
        },
    ];
    [
        RunOutcome::of_runs(&runs[..1]),
        RunOutcome::of_runs(&runs[2..]),
        RunOutcome::of_runs(&runs),
    ]
}

#[test]
fn each_run_is_counted_for_itself() {
    let step = RunFailureStep::Test;
    let wanted = [
        RunOutcome::Success,
        RunOutcome::Cancelled { step },
        RunOutcome::Failed { step },
    ];
    assert_eq!(outcomes(), wanted);
}

#[test]
fn no_run_and_a_run_without_tests_run_no_tests() {
    let none = FinishedRun {
        units: &[],
        start: start_of(0, None),
    };
    assert_eq!(RunOutcome::of_runs(&[]), RunOutcome::NoTestsRun);
    assert_eq!(RunOutcome::of_runs(&[none]), RunOutcome::NoTestsRun);
}
