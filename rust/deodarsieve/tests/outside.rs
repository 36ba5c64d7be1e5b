//! Each type, matched from outside the crate. The matches are not called: they compile only if
//! every variant and field that they name is public, if the enums in `open!` are `non_exhaustive`, if
//! those in `open_without_feature!` are without the feature `exhaustive`, and if no other is.
//! `CancelReason` and `RunStats` are not here: the package deodarsieve-c matches all variants of the
//! one, and makes the other from all fields.
#![deny(unreachable_patterns)]
#![allow(dead_code, reason = "that it compiles is the test")]

use deodarsieve::*;

/// Matches on an enum that may get more variants.
macro_rules! open {
    ($name:ident $(<$life:lifetime>)? { $($pattern:pat),+ $(,)? }) => {
        const _: fn(&$name $(<$life>)?) = |value| match value {
            $($pattern => (),)+
            _ => (),
        };
    };
}

/// Matches on an enum that may get more variants, unless the feature `exhaustive` is on.
macro_rules! open_without_feature {
    ($name:ident { $($pattern:pat),+ $(,)? }) => {
        const _: fn(&$name) = |value| match value {
            $($pattern => (),)+
            #[cfg(not(feature = "exhaustive"))]
            _ => (),
        };
    };
}

/// Matches on an enum whose variants are fixed.
macro_rules! closed {
    ($name:ident $(<$($argument:tt),+>)? { $($pattern:pat),+ $(,)? }) => {
        const _: fn(&$name $(<$($argument),+>)?) = |value| match value {
            $($pattern => (),)+
        };
    };
}

/// Takes all fields of a struct whose fields are fixed.
macro_rules! fields {
    ($name:ident $(<$($argument:tt),+>)? { $($field:ident),+ $(,)? }) => {
        const _: fn(&$name $(<$($argument),+>)?) = |value| {
            let $name { $($field),+ } = value;
            $(let _ = $field;)+
        };
    };
}

open_without_feature!(AbortDescription {
    AbortDescription::UnixSignal { signal: _, name: _ },
    AbortDescription::WindowsNtStatus { code: _, message: _ },
    AbortDescription::WindowsJobObject,
});
#[cfg(not(windows))]
closed!(AbortStatus { AbortStatus::UnixSignal(_) });
#[cfg(windows)]
closed!(AbortStatus {
    AbortStatus::UnixSignal(_),
    AbortStatus::WindowsNtStatus(_),
    AbortStatus::JobObject,
});
open_without_feature!(ExecutionResultDescription {
    ExecutionResultDescription::Pass,
    ExecutionResultDescription::Leak { result: _ },
    ExecutionResultDescription::Fail { failure: _, leaked: _ },
    ExecutionResultDescription::ExecFail,
    ExecutionResultDescription::Timeout { result: _ },
});
open_without_feature!(FailureDescription {
    FailureDescription::ExitCode { code: _ },
    FailureDescription::Abort { abort: _ },
});
open_without_feature!(FinalStatusLevel {
    FinalStatusLevel::None,
    FinalStatusLevel::Fail,
    FinalStatusLevel::Flaky,
    FinalStatusLevel::Slow,
    FinalStatusLevel::Skip,
    FinalStatusLevel::Leak,
    FinalStatusLevel::Pass,
    FinalStatusLevel::All,
});
#[cfg(feature = "serde_json")]
open!(FromValueError {
    FromValueError::NotAnObject,
    FromValueError::MessageMissing,
    FromValueError::MessageNotText,
    FromValueError::CausesNotAList,
    FromValueError::CauseNotText { index: _ },
});
open_without_feature!(StatusLevel {
    StatusLevel::None,
    StatusLevel::Fail,
    StatusLevel::Retry,
    StatusLevel::Slow,
    StatusLevel::Leak,
    StatusLevel::Pass,
    StatusLevel::Skip,
    StatusLevel::All,
});
open!(UnitError<'static> {
    UnitError::Start(_),
    UnitError::Output(_),
    UnitError::Abort(_),
    UnitError::Slice(_),
});
#[cfg(not(windows))]
closed!(UnitTerminateMethod { UnitTerminateMethod::Signal(_) });
#[cfg(windows)]
closed!(UnitTerminateMethod {
    UnitTerminateMethod::Signal(_),
    UnitTerminateMethod::JobObject,
    UnitTerminateMethod::Wait,
});
closed!(TestEventKind<'static> {
    TestEventKind::RunStarted { test_list: _, run_id: _, profile_name: _, cli_args: _, stress_condition: _ },
    TestEventKind::StressSubRunStarted { progress: _ },
    TestEventKind::SetupScriptStarted {
        stress_index: _, index: _, total: _, script_id: _, program: _, args: _, no_capture: _,
    },
    TestEventKind::SetupScriptSlow {
        stress_index: _, script_id: _, program: _, args: _, elapsed: _, will_terminate: _,
    },
    TestEventKind::SetupScriptFinished {
        stress_index: _, index: _, total: _, script_id: _, program: _, args: _,
        junit_store_success_output: _, junit_store_failure_output: _, no_capture: _, run_status: _,
    },
    TestEventKind::TestStarted {
        stress_index: _, test_instance: _, slot_assignment: _, current_stats: _, running: _,
        command_line: _,
    },
    TestEventKind::TestSlow {
        stress_index: _, test_instance: _, retry_data: _, elapsed: _, will_terminate: _,
    },
    TestEventKind::TestAttemptFailedWillRetry {
        stress_index: _, test_instance: _, run_status: _, delay_before_next_attempt: _,
        failure_output: _, running: _,
    },
    TestEventKind::TestRetryStarted {
        stress_index: _, test_instance: _, slot_assignment: _, retry_data: _, running: _,
        command_line: _,
    },
    TestEventKind::TestFinished {
        stress_index: _, test_instance: _, success_output: _, failure_output: _,
        junit_store_success_output: _, junit_store_failure_output: _, junit_flaky_fail_status: _,
        run_statuses: _, current_stats: _, running: _,
    },
    TestEventKind::TestSkipped {
        stress_index: _, test_instance: _, reason: _, junit_report_skipped: _,
    },
    TestEventKind::InfoStarted { total: _, run_stats: _ },
    TestEventKind::InfoResponse { index: _, total: _, response: _ },
    TestEventKind::InfoFinished { missing: _ },
    TestEventKind::InputEnter { current_stats: _, running: _ },
    TestEventKind::RunBeginCancel { setup_scripts_running: _, current_stats: _, running: _ },
    TestEventKind::RunBeginKill { setup_scripts_running: _, current_stats: _, running: _ },
    TestEventKind::RunPaused { setup_scripts_running: _, running: _ },
    TestEventKind::RunContinued { setup_scripts_running: _, running: _ },
    TestEventKind::StressSubRunFinished { progress: _, sub_elapsed: _, sub_stats: _ },
    TestEventKind::RunFinished {
        run_id: _, start_time: _, elapsed: _, run_stats: _, outstanding_not_seen: _,
    },
});

closed!(ChildError { ChildError::Fd(_), ChildError::SetupScriptOutput(_) });
closed!(ChildErrorDescription {
    ChildErrorDescription::ReadStdout { source: _ },
    ChildErrorDescription::ReadStderr { source: _ },
    ChildErrorDescription::ReadCombined { source: _ },
    ChildErrorDescription::Wait { source: _ },
    ChildErrorDescription::SetupScriptOutput { source: _ },
});
closed!(ChildExecutionOutput {
    ChildExecutionOutput::Output { result: _, output: _, errors: _ },
    ChildExecutionOutput::StartError(_),
});
closed!(ChildExecutionOutputDescription<LiveSpec> {
    ChildExecutionOutputDescription::Output { result: _, output: _, errors: _ },
    ChildExecutionOutputDescription::StartError(_),
});
closed!(ChildFdError {
    ChildFdError::ReadStdout(_),
    ChildFdError::ReadStderr(_),
    ChildFdError::ReadCombined(_),
    ChildFdError::Wait(_),
});
closed!(ChildOutput {
    ChildOutput::Split(ChildSplitOutput { stdout: _, stderr: _ }),
    ChildOutput::Combined { output: _ },
});
closed!(ChildOutputDescription {
    ChildOutputDescription::Split { stdout: _, stderr: _ },
    ChildOutputDescription::Combined { output: _ },
    ChildOutputDescription::NotLoaded,
});
closed!(ChildStartError { ChildStartError::TempPath(_), ChildStartError::Spawn(_) });
closed!(ChildStartErrorDescription {
    ChildStartErrorDescription::TempPath { source: _ },
    ChildStartErrorDescription::Spawn { source: _ },
});
closed!(ExecutionDescription<'static, LiveSpec> {
    ExecutionDescription::Success { single_status: _ },
    ExecutionDescription::Flaky { last_status: _, prior_statuses: _, result: _ },
    ExecutionDescription::Failure { first_status: _, last_status: _, retries: _ },
});
closed!(ExecutionResult {
    ExecutionResult::Pass,
    ExecutionResult::Leak { result: _ },
    ExecutionResult::Fail { failure_status: _, leaked: _ },
    ExecutionResult::ExecFail,
    ExecutionResult::Timeout { result: _ },
});
closed!(FailureStatus { FailureStatus::ExitCode(_), FailureStatus::Abort(_) });
closed!(FinalRunStats {
    FinalRunStats::Success,
    FinalRunStats::NoTestsRun,
    FinalRunStats::Cancelled { reason: _, kind: _ },
    FinalRunStats::Failed { kind: _ },
});
closed!(FinishedUnit<'static> { FinishedUnit::Script(_), FinishedUnit::Test(_) });
closed!(FlakyResult { FlakyResult::Pass, FlakyResult::Fail });
closed!(InfoResponse<'static> { InfoResponse::SetupScript(_), InfoResponse::Test(_) });
closed!(LeakTimeoutResult { LeakTimeoutResult::Pass, LeakTimeoutResult::Fail });
closed!(NextestRunMode { NextestRunMode::Test, NextestRunMode::Benchmark });
closed!(OutputStoreFinal { OutputStoreFinal::No, OutputStoreFinal::Yes { display_output: _ } });
closed!(ReporterEvent<'static> { ReporterEvent::Tick, ReporterEvent::Test(_) });
closed!(RunFailureStep { RunFailureStep::Test, RunFailureStep::SetupScript });
closed!(RunFinishedStats { RunFinishedStats::Single(_), RunFinishedStats::Stress(_) });
closed!(RunOutcome {
    RunOutcome::Success,
    RunOutcome::NoTestsRun,
    RunOutcome::Cancelled { step: _ },
    RunOutcome::Failed { step: _ },
});
closed!(RunStatsFailureKind {
    RunStatsFailureKind::SetupScript,
    RunStatsFailureKind::Test { initial_run_count: _, not_run: _ },
});
closed!(SlowTimeoutResult { SlowTimeoutResult::Pass, SlowTimeoutResult::Fail });
closed!(StressCondition { StressCondition::Count(_), StressCondition::Duration(_) });
closed!(StressCount { StressCount::Count { count: _ }, StressCount::Infinite });
closed!(StressFinalRunStats {
    StressFinalRunStats::Success,
    StressFinalRunStats::NoTestsRun,
    StressFinalRunStats::Cancelled,
    StressFinalRunStats::Failed,
});
closed!(StressProgress {
    StressProgress::Count { total: _, elapsed: _, completed: _ },
    StressProgress::Time { total: _, elapsed: _, completed: _ },
});
closed!(StressRemaining {
    StressRemaining::Count(_),
    StressRemaining::Infinite,
    StressRemaining::Time(_),
});
closed!(TestGroup { TestGroup::Global, TestGroup::Custom(_) });
closed!(TestOutputDisplay {
    TestOutputDisplay::Immediate,
    TestOutputDisplay::ImmediateFinal,
    TestOutputDisplay::Final,
    TestOutputDisplay::Never,
});
closed!(TestOutputErrorSlice<'static> {
    TestOutputErrorSlice::PanicMessage { stderr_subslice: _ },
    TestOutputErrorSlice::ErrorStr { stderr_subslice: _ },
    TestOutputErrorSlice::ShouldPanic { stdout_subslice: _ },
});
closed!(UnitKind { UnitKind::Test, UnitKind::Script });
closed!(UnitState {
    UnitState::Running { pid: _, time_taken: _, slow_after: _ },
    UnitState::Exiting {
        pid: _, time_taken: _, slow_after: _, tentative_result: _, waiting_duration: _, remaining: _,
    },
    UnitState::Terminating(_),
    UnitState::Exited { result: _, time_taken: _, slow_after: _ },
    UnitState::DelayBeforeNextAttempt {
        previous_result: _, previous_slow: _, waiting_duration: _, remaining: _,
    },
});
closed!(UnitTerminateReason {
    UnitTerminateReason::Timeout,
    UnitTerminateReason::Signal,
    UnitTerminateReason::Interrupt,
});
closed!(UnitTerminateSignal {
    UnitTerminateSignal::Interrupt,
    UnitTerminateSignal::Term,
    UnitTerminateSignal::Hangup,
    UnitTerminateSignal::Quit,
    UnitTerminateSignal::Kill,
});

fields!(FinishedTest {
    result,
    attempts,
    is_slow,
    flaky_result
});
fields!(ByteSubslice<'static> { slice, start });
fields!(ErrorSummary {
    short_message,
    description
});
fields!(ExecuteStatus<LiveSpec> {
    retry_data, output, is_slow, result, start_time, time_taken, delay_before_start, error_summary,
    output_error_slice,
});
fields!(FinishedRun<'static> { units, start });
fields!(JunitFlakyFailStatus { name });
fields!(MismatchReason { name });
fields!(OutputErrorSlice { slice, start });
fields!(OutputOnTestFinished {
    write_status_line,
    show_immediate,
    store_final
});
fields!(OwnedTestInstanceId {
    binary_id,
    test_name
});
fields!(ReportSkipPolicy { name });
fields!(RetryData {
    attempt,
    total_attempts
});
fields!(RunStart {
    initial_run_count,
    setup_scripts_initial_count,
    skipped,
    cancel_reason
});
fields!(SetupScriptEnvMap { env_map });
fields!(SetupScriptExecuteStatus<LiveSpec> {
    output, result, start_time, time_taken, is_slow, env_map, error_summary,
});
fields!(SetupScriptInfoResponse {
    stress_index,
    script_id,
    program,
    args,
    state,
    output
});
fields!(StatusLevels {
    status_level,
    final_status_level
});
fields!(StressIndex { current, total });
fields!(StressRunStats {
    completed,
    success_count,
    failed_count,
    last_final_stats
});
fields!(TestEvent<'static> { timestamp, elapsed, kind });
fields!(TestInfoResponse<'static> { stress_index, test_instance, retry_data, state, output });
fields!(TestInstanceId<'static> { binary_id, test_name });
fields!(TestList<'static> { instances, run_count });
fields!(TestSlotAssignment {
    global_slot,
    group_slot,
    test_group
});
fields!(TestsNotSeen {
    not_seen,
    total_not_seen
});
fields!(UnitAbortDescription<'static> { description, leaked });
fields!(UnitTerminatingState {
    pid,
    time_taken,
    reason,
    method,
    waiting_duration,
    remaining
});

/// The fields of a view, which may get more.
const _: fn(&TestView<'static>) = |value| {
    let TestView {
        result,
        attempts,
        is_slow,
        flaky_result,
        ..
    } = value;
    let _ = (result, attempts, is_slow, flaky_result);
};

#[test]
fn the_open_enums_are_those_that_the_promises_list() {
    let mut matched: Vec<_> = include_str!("outside.rs")
        .lines()
        .filter_map(|line| line.strip_prefix("open"))
        .filter_map(|line| {
            line.trim_start_matches("_without_feature")
                .strip_prefix("!(")
        })
        .filter_map(|line| line.split(|c: char| !c.is_alphanumeric()).next())
        .collect();
    matched.sort_unstable();
    let promises = include_str!("../SEMVER.md");
    let start = promises
        .find("`#[non_exhaustive]`:")
        .expect("the list is there");
    let list = promises[start..]
        .split("\n- ")
        .next()
        .expect("a split has a first part");
    let listed: Vec<_> = list.split('`').skip(3).step_by(2).collect();
    assert_eq!(matched, listed);
}
