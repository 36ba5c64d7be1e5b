//! Tests are started, slow, retried, finished and skipped.

use super::{
    THIRD, are, event_of, instance, is_instance, is_result, is_silent, kind_of, owned, so_far,
};
use deodarsieve::{
    ExecuteStatus, ExecutionStatuses, FlakyResult, JunitFlakyFailStatus, LiveSpec, MismatchReason,
    ReportSkipPolicy, ReporterEvent, RetryData, TestEventKind, TestGroup, TestOutputDisplay,
    TestSlotAssignment,
};
use deodarsieve_tests::fixtures::{EXIT_ONE, LEAK_PASS, attempt, finished_test};
use std::time::Duration;

const SECOND: RetryData = RetryData {
    attempt: 2,
    total_attempts: 3,
};

/// The third of all slots and the first of its group.
fn in_group(name: &str) -> TestSlotAssignment {
    TestSlotAssignment {
        global_slot: 2,
        group_slot: Some(0),
        test_group: TestGroup::Custom(String::from(name)),
    }
}

/// Returns true if it is that slot.
fn is_in_group(slot: &TestSlotAssignment, wanted: &str) -> bool {
    matches!(
        slot,
        TestSlotAssignment {
            global_slot: 2,
            group_slot: Some(0),
            test_group: TestGroup::Custom(name),
        } if name.as_str() == wanted
    )
}

/// The third of all slots, without a group.
const IN_NONE: TestSlotAssignment = TestSlotAssignment {
    global_slot: 2,
    group_slot: None,
    test_group: TestGroup::Global,
};

#[test]
fn slots_are_compared() {
    let database = in_group("database");
    assert!(database == in_group("database"));
    assert!(database != in_group("network"));
    assert!(database != IN_NONE);
    assert!(IN_NONE == IN_NONE);
}

fn started() -> ReporterEvent<'static> {
    let slot_assignment = in_group("database");
    let command_line = owned(&["app", "--exact", "adds"]);
    let kind = TestEventKind::TestStarted {
        stress_index: THIRD,
        test_instance: instance("adds"),
        slot_assignment,
        current_stats: so_far(),
        running: 3,
        command_line,
    };
    event_of(kind)
}

/// Returns true if its fields are those that `started` put in.
fn is_started(event: &ReporterEvent<'_>) -> bool {
    let Some(TestEventKind::TestStarted {
        stress_index,
        test_instance,
        slot_assignment,
        current_stats,
        running,
        command_line,
    }) = kind_of(event)
    else {
        return false;
    };
    *running == 3
        && *stress_index == THIRD
        && is_instance(test_instance, "adds")
        && is_in_group(slot_assignment, "database")
        && *current_stats == so_far()
        && are(command_line, &["app", "--exact", "adds"])
}

/// Returns true if it is the first of three attempts, slow, and exited with code 1.
fn is_slow_failure(status: &ExecuteStatus<LiveSpec>) -> bool {
    status.retry_data.attempt == 1
        && status.retry_data.total_attempts == 3
        && is_silent(&status.output, EXIT_ONE)
        && is_result(&status.result, EXIT_ONE)
        && status.is_slow
}

fn tried_again() -> ReporterEvent<'static> {
    let kind = TestEventKind::TestRetryStarted {
        stress_index: THIRD,
        test_instance: instance("adds"),
        slot_assignment: IN_NONE,
        retry_data: SECOND,
        running: 1,
        command_line: owned(&["app", "adds"]),
    };
    event_of(kind)
}

/// Returns true if its fields are those that `tried_again` put in.
fn is_tried_again(event: &ReporterEvent<'_>) -> bool {
    let Some(TestEventKind::TestRetryStarted {
        stress_index,
        test_instance,
        slot_assignment,
        retry_data,
        running,
        command_line,
    }) = kind_of(event)
    else {
        return false;
    };
    *running == 1
        && *stress_index == THIRD
        && is_instance(test_instance, "adds")
        && *slot_assignment == IN_NONE
        && *retry_data == SECOND
        && are(command_line, &["app", "adds"])
}

fn finished() -> ReporterEvent<'static> {
    let kind = TestEventKind::TestFinished {
        stress_index: THIRD,
        test_instance: instance("adds"),
        success_output: TestOutputDisplay::Never,
        failure_output: TestOutputDisplay::Final,
        junit_store_success_output: false,
        junit_store_failure_output: true,
        junit_flaky_fail_status: JunitFlakyFailStatus { name: "failure" },
        run_statuses: finished_test(&[EXIT_ONE], LEAK_PASS, false, FlakyResult::Fail),
        current_stats: so_far(),
        running: 0,
    };
    event_of(kind)
}

/// Returns true if its fields are those that `finished` put in.
fn is_finished(event: &ReporterEvent<'_>) -> bool {
    let Some(TestEventKind::TestFinished {
        stress_index,
        test_instance,
        success_output,
        failure_output,
        junit_store_success_output,
        junit_store_failure_output,
        junit_flaky_fail_status,
        run_statuses,
        current_stats,
        running,
    }) = kind_of(event)
    else {
        return false;
    };
    *success_output == TestOutputDisplay::Never
        && *failure_output == TestOutputDisplay::Final
        && !*junit_store_success_output
        && *junit_store_failure_output
        && *running == 0
        && *stress_index == THIRD
        && is_instance(test_instance, "adds")
        && junit_flaky_fail_status.name == "failure"
        && are_two(run_statuses)
        && *current_stats == so_far()
}

/// Returns true if the attempts are two, of a test that fails if it is flaky, and the last one leaked.
fn are_two(statuses: &ExecutionStatuses<LiveSpec>) -> bool {
    statuses.len() == 2
        && statuses.flaky_result() == FlakyResult::Fail
        && statuses.last_status().retry_data == SECOND
        && is_result(&statuses.last_status().result, LEAK_PASS)
}

fn slow() -> ReporterEvent<'static> {
    let kind = TestEventKind::TestSlow {
        stress_index: THIRD,
        test_instance: instance("divides"),
        retry_data: SECOND,
        elapsed: Duration::from_secs(60),
        will_terminate: false,
    };
    event_of(kind)
}

/// Returns true if its fields are those that `slow` put in.
fn is_slow(event: &ReporterEvent<'_>) -> bool {
    let Some(TestEventKind::TestSlow {
        stress_index,
        test_instance,
        retry_data,
        elapsed,
        will_terminate,
    }) = kind_of(event)
    else {
        return false;
    };
    !*will_terminate
        && *stress_index == THIRD
        && is_instance(test_instance, "divides")
        && *retry_data == SECOND
        && *elapsed == Duration::from_secs(60)
}

fn failed() -> ReporterEvent<'static> {
    let kind = TestEventKind::TestAttemptFailedWillRetry {
        stress_index: None,
        test_instance: instance("adds"),
        run_status: attempt(EXIT_ONE, 1, true),
        delay_before_next_attempt: Duration::from_millis(250),
        failure_output: TestOutputDisplay::ImmediateFinal,
        running: 2,
    };
    event_of(kind)
}

/// Returns true if its fields are those that `failed` put in.
fn is_failed(event: &ReporterEvent<'_>) -> bool {
    let Some(TestEventKind::TestAttemptFailedWillRetry {
        stress_index,
        test_instance,
        run_status,
        delay_before_next_attempt,
        failure_output,
        running,
    }) = kind_of(event)
    else {
        return false;
    };
    stress_index.is_none()
        && *failure_output == TestOutputDisplay::ImmediateFinal
        && *running == 2
        && is_instance(test_instance, "adds")
        && is_slow_failure(run_status)
        && *delay_before_next_attempt == Duration::from_millis(250)
}

fn skipped() -> ReporterEvent<'static> {
    let kind = TestEventKind::TestSkipped {
        stress_index: None,
        test_instance: instance("is_ignored"),
        reason: MismatchReason { name: "ignored" },
        junit_report_skipped: ReportSkipPolicy { name: "all" },
    };
    event_of(kind)
}

/// Returns true if its fields are those that `skipped` put in.
fn is_skipped(event: &ReporterEvent<'_>) -> bool {
    let Some(TestEventKind::TestSkipped {
        stress_index,
        test_instance,
        reason,
        junit_report_skipped,
    }) = kind_of(event)
    else {
        return false;
    };
    stress_index.is_none()
        && is_instance(test_instance, "is_ignored")
        && reason.name == "ignored"
        && junit_report_skipped.name == "all"
}

#[test]
fn tests_are_read_back() {
    assert!(is_started(&started()), "TestStarted");
    assert!(is_slow(&slow()), "TestSlow");
    assert!(is_failed(&failed()), "TestAttemptFailedWillRetry");
    assert!(is_tried_again(&tried_again()), "TestRetryStarted");
    assert!(is_finished(&finished()), "TestFinished");
    assert!(is_skipped(&skipped()), "TestSkipped");
}
