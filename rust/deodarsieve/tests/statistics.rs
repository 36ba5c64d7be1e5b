//! Statistics of a run in parts, and tests that are counted without their attempts.

use deodarsieve::{
    CancelReason, CounterFull, ExecutionResult, ExecutionResultDescription, FailureStatus,
    FinalStatusLevel, FinishedTest, FlakyResult, LeakTimeoutResult, RunStats, SlowTimeoutResult,
    StatusLevel,
};

/// Returns the statistics of a suite of three tests, of which two ran: one was flaky, one failed.
fn suite() -> RunStats {
    let flaky = FinishedTest {
        result: ExecutionResultDescription::Pass,
        attempts: 3,
        is_slow: true,
        flaky_result: FlakyResult::Pass,
    };
    let failed = FinishedTest {
        result: ExecutionResultDescription::from(ExecutionResult::Fail {
            failure_status: FailureStatus::ExitCode(101),
            leaked: false,
        }),
        attempts: 1,
        ..flaky.clone()
    };
    let mut stats = RunStats {
        initial_run_count: 3,
        skipped: 5,
        ..RunStats::default()
    };
    stats.on_test_view(&flaky.view());
    stats.on_test_view(&failed.view());
    stats.on_script_result(&ExecutionResultDescription::ExecFail);
    stats
}

#[test]
fn the_statistics_of_two_suites_are_added() {
    let mut total = suite();
    let other = RunStats {
        cancel_reason: Some(CancelReason::Signal),
        ..suite()
    };
    assert_eq!(total.try_add(&other), Ok(()));
    let wanted = RunStats {
        initial_run_count: 6,
        finished_count: 4,
        setup_scripts_finished_count: 2,
        setup_scripts_exec_failed: 2,
        passed: 2,
        passed_slow: 2,
        flaky: 2,
        failed: 2,
        failed_slow: 2,
        skipped: 10,
        cancel_reason: Some(CancelReason::Signal),
        ..RunStats::default()
    };
    assert_eq!(total, wanted);
}

#[test]
fn the_greater_reason_to_cancel_stays() {
    let with = |cancel_reason| RunStats {
        cancel_reason,
        ..RunStats::default()
    };
    let (less, more) = (
        Some(CancelReason::TestFailure),
        Some(CancelReason::Interrupt),
    );
    for (one, other, wanted) in [
        (less, more, more),
        (more, less, more),
        (None, less, less),
        (less, None, less),
    ] {
        let mut total = with(one);
        assert_eq!(total.try_add(&with(other)), Ok(()));
        assert_eq!(total, with(wanted));
    }
}

#[test]
fn a_sum_that_does_not_fit_changes_nothing() {
    let full = RunStats {
        skipped: usize::MAX - 4,
        ..RunStats::default()
    };
    let mut total = full;
    assert_eq!(total.try_add(&suite()), Err(CounterFull));
    assert_eq!(total, full);
}

#[test]
fn a_success_has_the_level_of_its_result() {
    let leak = ExecutionResultDescription::Leak {
        result: LeakTimeoutResult::Pass,
    };
    let late = ExecutionResultDescription::Timeout {
        result: SlowTimeoutResult::Pass,
    };
    assert_eq!(
        StatusLevel::of_success(&ExecutionResultDescription::Pass),
        Some(StatusLevel::Pass)
    );
    assert_eq!(StatusLevel::of_success(&leak), Some(StatusLevel::Leak));
    assert_eq!(StatusLevel::of_success(&late), Some(StatusLevel::Slow));
    assert_eq!(
        StatusLevel::of_success(&ExecutionResultDescription::ExecFail),
        None
    );
    assert_eq!(
        FinalStatusLevel::of_success(&leak, false),
        Some(FinalStatusLevel::Leak)
    );
    assert_eq!(
        FinalStatusLevel::of_success(&leak, true),
        Some(FinalStatusLevel::Slow)
    );
    assert_eq!(
        FinalStatusLevel::of_success(&late, false),
        Some(FinalStatusLevel::Slow)
    );
    assert_eq!(
        FinalStatusLevel::of_success(&ExecutionResultDescription::ExecFail, false),
        None
    );
}

#[test]
fn a_flaky_test_has_the_level_of_its_setting() {
    assert_eq!(StatusLevel::of_flaky(FlakyResult::Pass), StatusLevel::Retry);
    assert_eq!(StatusLevel::of_flaky(FlakyResult::Fail), StatusLevel::Fail);
    assert_eq!(
        FinalStatusLevel::of_flaky(FlakyResult::Pass),
        FinalStatusLevel::Flaky
    );
    assert_eq!(
        FinalStatusLevel::of_flaky(FlakyResult::Fail),
        FinalStatusLevel::Fail
    );
}

#[test]
fn only_a_successful_run_is_a_success() {
    let run = |passed, failed, cancel_reason| {
        let stats = RunStats {
            initial_run_count: 1,
            finished_count: passed + failed,
            passed,
            failed,
            cancel_reason,
            ..RunStats::default()
        };
        stats.summarize_final()
    };
    assert!(run(1, 0, None).is_success());
    for summary in [
        run(0, 1, None),
        run(0, 0, Some(CancelReason::Interrupt)),
        RunStats::default().summarize_final(),
    ] {
        assert!(!summary.is_success(), "{summary:?}");
    }
}
