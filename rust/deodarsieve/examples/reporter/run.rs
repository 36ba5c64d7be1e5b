//! The runner's part: the events of a run, as plain values. A real runner makes them as its processes
//! start and end; this one has a fixed plan.

use std::time::Duration;

use bytes::Bytes;
use deodarsieve::{
    AbortStatus, CancelReason, ChildExecutionOutput, ChildExecutionOutputDescription, ChildOutput,
    ChildSingleOutput, ChildSplitOutput, ExecuteStatus, ExecutionResult,
    ExecutionResultDescription, ExecutionStatuses, FailureStatus, FlakyResult,
    JunitFlakyFailStatus, LeakTimeoutResult, LiveSpec, MismatchReason, Moment, ReportSkipPolicy,
    RetryData, RunFinishedStats, RunStats, SIGTERM, ScriptId, SetupScriptExecuteStatus, TestEvent,
    TestEventKind, TestGroup, TestInstanceId, TestList, TestOutputDisplay, TestSlotAssignment,
};
use uuid::Uuid;

const ADDS: TestInstanceId<'static> = test("adds");
const CONNECTS: TestInstanceId<'static> = test("connects");
const SLEEPS: TestInstanceId<'static> = test("sleeps");
const SPAWNS: TestInstanceId<'static> = test("spawns");
const LOOPS: TestInstanceId<'static> = test("loops");
const DIVIDES: TestInstanceId<'static> = test("divides");
const NEVER_BEGUN: TestInstanceId<'static> = test("never_begun");
const ON_WINDOWS: TestInstanceId<'static> = test("on_windows");

/// The tests of the run. The last is skipped.
pub const TESTS: [TestInstanceId<'static>; 8] = [
    ADDS,
    CONNECTS,
    SLEEPS,
    SPAWNS,
    LOOPS,
    DIVIDES,
    NEVER_BEGUN,
    ON_WINDOWS,
];

/// When the run began: 2026-01-01 09:00:00 at one hour east of UTC.
const START: Moment = match Moment::new(1_767_254_400, 0, 3_600) {
    Some(start) => start,
    None => panic!("the offset is less than a day"),
};

/// The id of the run.
const RUN_ID: Uuid = Uuid::from_u128(1);

/// A failure with the exit code of a Rust test that panicked.
const FAILED: ExecutionResult = ExecutionResult::Fail {
    failure_status: FailureStatus::ExitCode(101),
    leaked: false,
};

/// A test that the runner ended.
const TERMINATED: ExecutionResult = ExecutionResult::Fail {
    failure_status: FailureStatus::Abort(AbortStatus::UnixSignal(SIGTERM)),
    leaked: false,
};

/// Returns a test of the only binary.
const fn test(test_name: &'static str) -> TestInstanceId<'static> {
    TestInstanceId {
        binary_id: "calc",
        test_name,
    }
}

/// Returns the events of the run, from `RunStarted` to `RunFinished`.
pub fn events<'a>(list: &'a TestList<'a>) -> Vec<TestEvent<'a>> {
    let mut run = Runner::new(list);
    run.begin(list);
    run.run_script("create-database");
    run.skip(ON_WINDOWS);
    run_tests_that_pass(&mut run);
    run_tests_that_fail(&mut run);
    run.end()
}

/// Runs one test after the other. The second passes at its second attempt, the third is slow, and the
/// fourth leaks.
fn run_tests_that_pass(run: &mut Runner<'_>) {
    run.start(ADDS);
    let added = run.attempt(1, 1, ExecutionResult::Pass, 20, "");
    run.finish(ADDS, vec![added]);

    run.start(CONNECTS);
    let message = "thread 'connects' panicked at src/net.rs:31:9:\nconnection refused\n";
    let first = run.attempt(1, 3, FAILED, 30, message);
    run.retry(CONNECTS, &first);
    let second = run.attempt(2, 3, ExecutionResult::Pass, 25, "");
    run.finish(CONNECTS, vec![first, second]);

    run.start(SLEEPS);
    run.is_slow(SLEEPS);
    let mut slept = run.attempt(1, 1, ExecutionResult::Pass, 61_000, "");
    slept.is_slow = true;
    run.finish(SLEEPS, vec![slept]);

    run.start(SPAWNS);
    let leak = ExecutionResult::Leak {
        result: LeakTimeoutResult::Pass,
    };
    let spawned = run.attempt(1, 1, leak, 40, "");
    run.finish(SPAWNS, vec![spawned]);
}

/// Runs two tests at once. When one of them fails, the runner ends the other and starts no more.
fn run_tests_that_fail(run: &mut Runner<'_>) {
    run.start(LOOPS);
    run.start(DIVIDES);
    let message = "thread 'divides' panicked at src/lib.rs:12:5:\nattempt to divide by zero\n";
    let divided = run.attempt(1, 1, FAILED, 15, message);
    run.finish(DIVIDES, vec![divided]);
    run.cancel(CancelReason::TestFailureImmediate);
    let ended = run.attempt(1, 1, TERMINATED, 35, "looping\n");
    run.finish(LOOPS, vec![ended]);
}

/// Returns a result with the name of its signal. Only one signal occurs in this run.
fn described(result: ExecutionResult) -> ExecutionResultDescription {
    ExecutionResultDescription::from_status(result, Some(String::from("TERM")))
}

/// Returns the output of a process that wrote this to its standard error.
fn captured(
    result: ExecutionResult,
    stderr: &'static str,
) -> ChildExecutionOutputDescription<LiveSpec> {
    let captured =
        |text: &'static str| Some(ChildSingleOutput::from(Bytes::from_static(text.as_bytes())));
    let output = ChildExecutionOutput::Output {
        result: Some(result),
        output: ChildOutput::Split(ChildSplitOutput {
            stdout: captured(""),
            stderr: captured(stderr),
        }),
        errors: None,
    };
    ChildExecutionOutputDescription::from_output(output, Some(String::from("TERM")))
}

/// The state of a runner, and the events so far.
struct Runner<'a> {
    events: Vec<TestEvent<'a>>,
    stats: RunStats,
    running: usize,
    elapsed: Duration,
}

impl<'a> Runner<'a> {
    /// A run of this list that has not begun.
    fn new(list: &TestList<'a>) -> Self {
        let stats = RunStats {
            initial_run_count: list.run_count,
            setup_scripts_initial_count: 1,
            skipped: list.instances.len() - list.run_count,
            ..RunStats::default()
        };
        Runner {
            events: Vec::new(),
            stats,
            running: 0,
            elapsed: Duration::ZERO,
        }
    }

    /// Returns the time of the clock.
    fn now(&self) -> Moment {
        let nanoseconds = START.unix_nanoseconds() + self.elapsed.as_nanos() as i128;
        Moment::from_unix_nanoseconds(nanoseconds, START.offset_seconds())
            .expect("the run ends before the greatest moment")
    }

    /// Makes an event ten milliseconds after the one before it.
    fn emit(&mut self, kind: TestEventKind<'a>) {
        self.elapsed += Duration::from_millis(10);
        self.events.push(TestEvent {
            timestamp: self.now(),
            elapsed: self.elapsed,
            kind,
        });
    }

    /// Runs an attempt from now on, until it ends.
    fn attempt(
        &mut self,
        attempt: u32,
        total_attempts: u32,
        result: ExecutionResult,
        milliseconds: u64,
        stderr: &'static str,
    ) -> ExecuteStatus<LiveSpec> {
        let start_time = self.now();
        let time_taken = Duration::from_millis(milliseconds);
        self.elapsed += time_taken;
        ExecuteStatus {
            retry_data: RetryData {
                attempt,
                total_attempts,
            },
            output: captured(result, stderr),
            is_slow: false,
            result: described(result),
            start_time,
            time_taken,
            delay_before_start: Duration::ZERO,
            error_summary: None,
            output_error_slice: None,
        }
    }

    /// Begins the run.
    fn begin(&mut self, list: &'a TestList<'a>) {
        self.emit(TestEventKind::RunStarted {
            test_list: list,
            run_id: RUN_ID,
            profile_name: String::from("default"),
            cli_args: vec![String::from("run")],
            stress_condition: None,
        });
    }

    /// Runs a setup script, which passes. It is counted before its event is made.
    fn run_script(&mut self, name: &str) {
        self.emit(TestEventKind::SetupScriptStarted {
            stress_index: None,
            index: 0,
            total: 1,
            script_id: ScriptId(String::from(name)),
            program: String::from("sh"),
            args: Vec::new(),
            no_capture: false,
        });
        let run_status = SetupScriptExecuteStatus {
            output: captured(ExecutionResult::Pass, ""),
            result: described(ExecutionResult::Pass),
            start_time: self.now(),
            time_taken: Duration::from_millis(120),
            is_slow: false,
            env_map: None,
            error_summary: None,
        };
        self.elapsed += run_status.time_taken;
        self.stats.on_setup_script_finished(&run_status);
        self.emit(TestEventKind::SetupScriptFinished {
            stress_index: None,
            index: 0,
            total: 1,
            script_id: ScriptId(String::from(name)),
            program: String::from("sh"),
            args: Vec::new(),
            junit_store_success_output: false,
            junit_store_failure_output: true,
            no_capture: false,
            run_status,
        });
    }

    /// Skips a test. It is one of the skipped tests from the beginning, and no counter changes.
    fn skip(&mut self, test_instance: TestInstanceId<'a>) {
        self.emit(TestEventKind::TestSkipped {
            stress_index: None,
            test_instance,
            reason: MismatchReason { name: "expression" },
            junit_report_skipped: ReportSkipPolicy { name: "none" },
        });
    }

    /// Starts a test. It is running when its event is made.
    fn start(&mut self, test_instance: TestInstanceId<'a>) {
        self.running += 1;
        self.emit(TestEventKind::TestStarted {
            stress_index: None,
            test_instance,
            slot_assignment: slot(),
            current_stats: self.stats,
            running: self.running,
            command_line: vec![String::from("target/debug/calc")],
        });
    }

    /// Makes the event that a test has run for a minute.
    fn is_slow(&mut self, test_instance: TestInstanceId<'a>) {
        self.emit(TestEventKind::TestSlow {
            stress_index: None,
            test_instance,
            retry_data: RetryData {
                attempt: 1,
                total_attempts: 1,
            },
            elapsed: Duration::from_secs(60),
            will_terminate: false,
        });
    }

    /// Ends an attempt that failed, and starts the next. No counter changes.
    fn retry(&mut self, test_instance: TestInstanceId<'a>, failed: &ExecuteStatus<LiveSpec>) {
        self.emit(TestEventKind::TestAttemptFailedWillRetry {
            stress_index: None,
            test_instance,
            run_status: failed.clone(),
            delay_before_next_attempt: Duration::ZERO,
            failure_output: TestOutputDisplay::ImmediateFinal,
            running: self.running,
        });
        self.emit(TestEventKind::TestRetryStarted {
            stress_index: None,
            test_instance,
            slot_assignment: slot(),
            retry_data: RetryData {
                attempt: failed.retry_data.attempt + 1,
                ..failed.retry_data
            },
            running: self.running,
            command_line: vec![String::from("target/debug/calc")],
        });
    }

    /// Ends a test. It is counted, and no longer running, before its event is made.
    fn finish(
        &mut self,
        test_instance: TestInstanceId<'a>,
        attempts: Vec<ExecuteStatus<LiveSpec>>,
    ) {
        let run_statuses = ExecutionStatuses::new(attempts, FlakyResult::Pass);
        self.stats.on_test_finished(&run_statuses);
        self.running -= 1;
        self.emit(TestEventKind::TestFinished {
            stress_index: None,
            test_instance,
            success_output: TestOutputDisplay::Never,
            failure_output: TestOutputDisplay::ImmediateFinal,
            junit_store_success_output: false,
            junit_store_failure_output: true,
            junit_flaky_fail_status: JunitFlakyFailStatus { name: "failure" },
            run_statuses,
            current_stats: self.stats,
            running: self.running,
        });
    }

    /// Cancels the run. The reason is in the counters of this event and of all after it.
    fn cancel(&mut self, reason: CancelReason) {
        self.stats.cancel_reason = Some(reason);
        self.emit(TestEventKind::RunBeginCancel {
            setup_scripts_running: 0,
            current_stats: self.stats,
            running: self.running,
        });
    }

    /// Ends the run, and returns its events.
    fn end(mut self) -> Vec<TestEvent<'a>> {
        self.emit(TestEventKind::RunFinished {
            run_id: RUN_ID,
            start_time: START,
            elapsed: self.elapsed,
            run_stats: RunFinishedStats::Single(self.stats),
            outstanding_not_seen: None,
        });
        self.events
    }
}

/// Returns the slot of every test of this run, none of which is in a group of its own.
fn slot() -> TestSlotAssignment {
    TestSlotAssignment {
        global_slot: 0,
        group_slot: None,
        test_group: TestGroup::Global,
    }
}
