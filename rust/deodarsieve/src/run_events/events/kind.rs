// Made by tools/erase from crates/run_events/src/events/kind.rt. Do not edit.
//! The kinds of events.

use crate::run_events::config::{
    JunitFlakyFailStatus, MismatchReason, Moment, ReportSkipPolicy, ScriptId, StressCondition,
    TestInstanceId, TestList, TestOutputDisplay,
};
use crate::run_events::events::info::InfoResponse;
use crate::run_events::events::not_seen::TestsNotSeen;
use crate::run_events::events::slots::TestSlotAssignment;
use crate::run_events::progress::StressProgress;
use crate::run_events_attempts::attempts::{
    ExecuteStatus, ExecutionStatuses, RetryData, SetupScriptExecuteStatus,
};
use crate::run_events_attempts::child::LiveSpec;
use crate::run_events_results::stress::StressIndex;
use crate::run_events_stats::outcome::RunFinishedStats;
use crate::run_events_stats::stats::RunStats;
use alloc::string::String;
use alloc::vec::Vec;
use core::time::Duration;
use uuid::Uuid;

/// The kind of an event. The kinds are declared in the order of a run. Those that can come at any
/// time are before the end of the run.
#[derive(Clone, Debug)]
pub enum TestEventKind<'a> {
    // The start of the run.
    /// The run begins. This is the first event of a run. Displayers and recorders read it.
    RunStarted {
        /// The tests that the runner knows of.
        test_list: &'a TestList<'a>,

        /// The id of the run.
        run_id: Uuid,

        /// The profile by which the runner is configured.
        profile_name: String,

        /// The command line of the runner.
        cli_args: Vec<String>,

        /// How long or how often the run is repeated, if it is.
        stress_condition: Option<StressCondition>,
    },

    /// The next sub-run of a repeated run begins. The counters of the events up to its end are those
    /// of the sub-run, from zero. Displayers and recorders read it.
    StressSubRunStarted {
        /// The progress of the repeated run.
        progress: StressProgress,
    },

    // Setup scripts.
    /// A setup script was started. Setup scripts run before the tests, one after the other.
    /// Displayers and recorders read it.
    SetupScriptStarted {
        /// The sub-run that it belongs to, if the run is repeated.
        stress_index: Option<StressIndex>,

        /// Its position among the setup scripts, counted from 0.
        index: usize,

        /// The number of setup scripts.
        total: usize,

        /// The setup script.
        script_id: ScriptId,

        /// The program that it runs.
        program: String,

        /// The arguments of that program.
        args: Vec<String>,

        /// True if some of its output is not captured but passed on.
        no_capture: bool,
    },

    /// A setup script has run for a further slow timeout, and has not ended. Displayers and recorders
    /// read it.
    SetupScriptSlow {
        /// The sub-run that it belongs to, if the run is repeated.
        stress_index: Option<StressIndex>,

        /// The setup script.
        script_id: ScriptId,

        /// The program that it runs.
        program: String,

        /// The arguments of that program.
        args: Vec<String>,

        /// How long it has run.
        elapsed: Duration,

        /// True if its time ran out, and the runner is about to end it.
        will_terminate: bool,
    },

    /// A setup script finished. The dispatcher has already counted it. If it did not succeed and the
    /// run is not cancelled yet, a `RunBeginCancel` follows. Displayers, JUnit writers and recorders
    /// read it; a JUnit writer reports it as a case of its own.
    SetupScriptFinished {
        /// The sub-run that it belongs to, if the run is repeated.
        stress_index: Option<StressIndex>,

        /// Its position among the setup scripts, counted from 0.
        index: usize,

        /// The number of setup scripts.
        total: usize,

        /// The setup script.
        script_id: ScriptId,

        /// The program that it runs.
        program: String,

        /// The arguments of that program.
        args: Vec<String>,

        /// True if a JUnit report includes its output if it succeeded.
        junit_store_success_output: bool,

        /// True if a JUnit report includes its output if it failed.
        junit_store_failure_output: bool,

        /// True if some of its output is not captured but passed on.
        no_capture: bool,

        /// The finished script. `FinishedUnit::Script` borrows it.
        run_status: SetupScriptExecuteStatus<LiveSpec>,
    },

    // Tests.
    /// The first attempt of a test was started. The counters do not include the test yet, but the
    /// number of running tests does. Displayers and recorders read it.
    TestStarted {
        /// The sub-run that it belongs to, if the run is repeated.
        stress_index: Option<StressIndex>,

        /// The test.
        test_instance: TestInstanceId<'a>,

        /// Its slots and its group.
        slot_assignment: TestSlotAssignment,

        /// The counters of the run.
        current_stats: RunStats,

        /// The number of running tests.
        running: usize,

        /// The command line of the attempt.
        command_line: Vec<String>,
    },

    /// An attempt has run for a further slow timeout, and has not ended. Displayers and recorders
    /// read it.
    TestSlow {
        /// The sub-run that it belongs to, if the run is repeated.
        stress_index: Option<StressIndex>,

        /// The test.
        test_instance: TestInstanceId<'a>,

        /// The number of the attempt.
        retry_data: RetryData,

        /// How long the attempt has run.
        elapsed: Duration,

        /// True if its time ran out, and the runner is about to end it.
        will_terminate: bool,
    },

    /// An attempt failed, and another one will follow. It does not change a counter, and the test is
    /// still running. Displayers and recorders read it; a JUnit writer finds the attempt in
    /// `TestFinished`.
    TestAttemptFailedWillRetry {
        /// The sub-run that it belongs to, if the run is repeated.
        stress_index: Option<StressIndex>,

        /// The test.
        test_instance: TestInstanceId<'a>,

        /// The finished attempt.
        run_status: ExecuteStatus<LiveSpec>,

        /// How long the runner will wait before the next attempt.
        delay_before_next_attempt: Duration,

        /// When the output of its failure is displayed.
        failure_output: TestOutputDisplay,

        /// The number of running tests.
        running: usize,
    },

    /// A further attempt of a test was started. The test has been running since its first attempt, in
    /// the same slots. Displayers and recorders read it.
    TestRetryStarted {
        /// The sub-run that it belongs to, if the run is repeated.
        stress_index: Option<StressIndex>,

        /// The test.
        test_instance: TestInstanceId<'a>,

        /// Its slots and its group.
        slot_assignment: TestSlotAssignment,

        /// The number of the attempt.
        retry_data: RetryData,

        /// The number of running tests.
        running: usize,

        /// The command line of the attempt.
        command_line: Vec<String>,
    },

    /// A test finished, because its last attempt ended. The counters already include the test, and
    /// the number of running tests does not. If it is the first failure and the run stops at a
    /// failure, a `RunBeginCancel` follows. Displayers, JUnit writers and recorders read it.
    TestFinished {
        /// The sub-run that it belongs to, if the run is repeated.
        stress_index: Option<StressIndex>,

        /// The test.
        test_instance: TestInstanceId<'a>,

        /// When its output is displayed if it succeeded.
        success_output: TestOutputDisplay,

        /// When its output is displayed if it failed.
        failure_output: TestOutputDisplay,

        /// True if a JUnit report includes its output if it succeeded.
        junit_store_success_output: bool,

        /// True if a JUnit report includes its output if it failed.
        junit_store_failure_output: bool,

        /// How a JUnit report shows it if it is flaky and counts as failed.
        junit_flaky_fail_status: JunitFlakyFailStatus,

        /// All its attempts. `FinishedUnit::Test` borrows them.
        run_statuses: ExecutionStatuses<LiveSpec>,

        /// The counters of the run.
        current_stats: RunStats,

        /// The number of running tests.
        running: usize,
    },

    /// A test will not run. Displayers, JUnit writers and recorders read it.
    TestSkipped {
        /// The sub-run that it belongs to, if the run is repeated.
        stress_index: Option<StressIndex>,

        /// The test.
        test_instance: TestInstanceId<'a>,

        /// Why the test is skipped.
        reason: MismatchReason,

        /// Which skipped tests a JUnit report lists.
        junit_report_skipped: ReportSkipPolicy,
    },

    // Requests in the middle of a run.
    /// The user requested information by a key or a signal, and the running units were asked.
    /// Displayers read it.
    InfoStarted {
        /// The number of units that were asked, and so of the responses to come.
        total: usize,

        /// The counters of the run.
        run_stats: RunStats,
    },

    /// A unit responded to the request for information. Displayers read it.
    InfoResponse {
        /// The number of responses before this one.
        index: usize,

        /// The number of units that were asked.
        total: usize,

        /// The response.
        response: InfoResponse<'a>,
    },

    /// All units responded, or the runner no longer waits for the others. Displayers read it.
    InfoFinished {
        /// The number of units that did not respond.
        missing: usize,
    },

    /// The user pressed Enter. A displayer writes a new line or the progress of the run. Displayers
    /// read it.
    InputEnter {
        /// The counters of the run.
        current_stats: RunStats,

        /// The number of running tests.
        running: usize,
    },

    // Cancellation and pauses.
    /// The run begins to be cancelled, or the reason became a greater one. The reason is in the
    /// counters. The runner waits for the running units or ends them, which depends on the reason.
    /// Displayers and recorders read it.
    RunBeginCancel {
        /// The number of running setup scripts.
        setup_scripts_running: usize,

        /// The counters of the run.
        current_stats: RunStats,

        /// The number of running tests.
        running: usize,
    },

    /// A further signal came while the run was being cancelled. The reason in the counters is now
    /// that signal, and the running units are killed. Displayers read it.
    RunBeginKill {
        /// The number of running setup scripts.
        setup_scripts_running: usize,

        /// The counters of the run.
        current_stats: RunStats,

        /// The number of running tests.
        running: usize,
    },

    /// The runner was paused, and the running units with it. Displayers and recorders read it.
    RunPaused {
        /// The number of running setup scripts.
        setup_scripts_running: usize,

        /// The number of running tests.
        running: usize,
    },

    /// The runner was continued, and the paused units with it. Displayers and recorders read it.
    RunContinued {
        /// The number of running setup scripts.
        setup_scripts_running: usize,

        /// The number of running tests.
        running: usize,
    },

    // The run ends.
    /// A sub-run of a repeated run ended. Displayers and recorders read it.
    StressSubRunFinished {
        /// The progress of the repeated run.
        progress: StressProgress,

        /// How long the sub-run took.
        sub_elapsed: Duration,

        /// The counters of the sub-run.
        sub_stats: RunStats,
    },

    /// The run ended. This is the last event of a run. The exit status of the runner follows from the
    /// summary of the statistics. Displayers read it to sum up the run, JUnit writers to write their
    /// report, and recorders.
    RunFinished {
        /// The id of the run.
        run_id: Uuid,

        /// When the run began.
        start_time: Moment,

        /// How long it took.
        elapsed: Duration,

        /// The statistics of the run.
        run_stats: RunFinishedStats,

        /// The tests that a rerun did not find, if there are any.
        outstanding_not_seen: Option<TestsNotSeen>,
    },
}
