//! The finished units of events are counted.

use super::{event_of, instance, script_id, so_far};
use deodarsieve::{
    CancelReason, ExecutionResult, FinalRunStats, FinishedUnit, FlakyResult, JunitFlakyFailStatus,
    ReporterEvent, RunStart, RunStats, RunStatsFailureKind, TestEventKind, TestOutputDisplay,
};
use deodarsieve_tests::fixtures::{
    EXIT_ONE, LEAK_FAIL, PASS, TIMEOUT_PASS, finished_script, finished_test,
};

/// Returns the event of a test whose attempts have these results, the last one slow or not.
fn test_finished(
    test_name: &'static str,
    earlier: &[ExecutionResult],
    last: ExecutionResult,
    is_slow: bool,
) -> ReporterEvent<'static> {
    let kind = TestEventKind::TestFinished {
        stress_index: None,
        test_instance: instance(test_name),
        success_output: TestOutputDisplay::Never,
        failure_output: TestOutputDisplay::Immediate,
        junit_store_success_output: false,
        junit_store_failure_output: true,
        junit_flaky_fail_status: JunitFlakyFailStatus { name: "failure" },
        run_statuses: finished_test(earlier, last, is_slow, FlakyResult::Pass),
        current_stats: so_far(),
        running: 0,
    };
    event_of(kind)
}

/// Returns the event of the only setup script, which ran out of time.
fn script_finished() -> ReporterEvent<'static> {
    let script_id = script_id();
    let program = String::from("sh");
    let kind = TestEventKind::SetupScriptFinished {
        stress_index: None,
        index: 0,
        total: 1,
        script_id,
        program,
        args: Vec::new(),
        junit_store_success_output: false,
        junit_store_failure_output: true,
        no_capture: false,
        run_status: finished_script(TIMEOUT_PASS),
    };
    event_of(kind)
}

/// Returns the finished unit of an event, if it has one.
fn finished_unit<'e>(event: &'e ReporterEvent<'_>) -> Option<FinishedUnit<'e>> {
    let ReporterEvent::Test(event) = event else {
        return None;
    };
    match &event.kind {
        TestEventKind::SetupScriptFinished { run_status, .. } => {
            Some(FinishedUnit::Script(run_status))
        }
        TestEventKind::TestFinished { run_statuses, .. } => Some(FinishedUnit::Test(run_statuses)),
        _ => None,
    }
}

/// Returns the events of a run: a script that timed out, a flaky test, a slow test that leaked, and
/// a slow test that timed out, which counts as passed.
fn events_of_run() -> Vec<ReporterEvent<'static>> {
    vec![
        script_finished(),
        test_finished("flakes", &[EXIT_ONE], PASS, false),
        ReporterEvent::Tick,
        test_finished("leaks", &[], LEAK_FAIL, true),
        event_of(TestEventKind::InfoFinished { missing: 1 }),
        test_finished("times_out", &[], TIMEOUT_PASS, true),
    ]
}

/// Returns the counters of a run with these events.
fn counted(events: &[ReporterEvent<'_>], start: RunStart) -> RunStats {
    let units: Vec<FinishedUnit<'_>> = events.iter().filter_map(finished_unit).collect();
    RunStats::of_run(&units, start)
}

#[test]
fn events_lend_their_units_to_the_counters() {
    let start = RunStart {
        initial_run_count: 4,
        setup_scripts_initial_count: 1,
        skipped: 2,
        cancel_reason: Some(CancelReason::GlobalTimeout),
    };
    let events = events_of_run();
    let stats = counted(&events, start);
    let wanted = RunStats {
        initial_run_count: 4,
        finished_count: 3,
        setup_scripts_initial_count: 1,
        setup_scripts_finished_count: 1,
        setup_scripts_timed_out: 1,
        passed: 2,
        passed_timed_out: 1,
        flaky: 1,
        failed: 1,
        failed_slow: 1,
        leaky_failed: 1,
        skipped: 2,
        cancel_reason: Some(CancelReason::GlobalTimeout),
        ..RunStats::default()
    };
    assert_eq!(stats, wanted);
    let summary = FinalRunStats::Cancelled {
        reason: Some(CancelReason::GlobalTimeout),
        kind: RunStatsFailureKind::SetupScript,
    };
    assert_eq!(stats.summarize_final(), summary);
}
