//! Events: each kind is made and read back.

use deodarsieve::{
    ChildExecutionOutputDescription, ChildOutputDescription, ExecutionResult,
    ExecutionResultDescription, LiveSpec, Moment, ReporterEvent, RunStats, ScriptId, StressIndex,
    TestEvent, TestEventKind, TestInstanceId,
};
use std::time::Duration;

mod attempts;
mod counts;
mod requests;
mod runs;
mod scripts;
mod states;
mod stops;

/// Returns the counters of a run of nine tests, after four have finished.
fn so_far() -> RunStats {
    RunStats {
        initial_run_count: 9,
        finished_count: 4,
        setup_scripts_initial_count: 2,
        setup_scripts_finished_count: 2,
        setup_scripts_passed: 2,
        passed: 3,
        passed_slow: 1,
        flaky: 1,
        failed: 1,
        skipped: 5,
        ..RunStats::default()
    }
}

/// The third sub-run of a run that is repeated without end.
const THIRD: Option<StressIndex> = Some(StressIndex {
    current: 2,
    total: None,
});

/// The earliest moment.
const FIRST: Moment = Moment::MIN;

/// The latest moment.
const LAST: Moment = Moment::MAX;

/// A test of the only binary.
fn instance(test_name: &str) -> TestInstanceId<'_> {
    TestInstanceId {
        binary_id: "app::bin/app",
        test_name,
    }
}

/// Returns true if it is the test with this name.
fn is_instance(found: &TestInstanceId<'_>, test_name: &str) -> bool {
    found.binary_id == "app::bin/app" && found.test_name == test_name
}

/// An id of a setup script.
fn script_id() -> ScriptId {
    ScriptId(String::from("make-database"))
}

/// Returns copies of texts.
fn owned(texts: &[&str]) -> Vec<String> {
    texts.iter().map(|text| String::from(*text)).collect()
}

/// Returns true if the texts are these.
fn are(found: &[String], wanted: &[&str]) -> bool {
    found == wanted
}

/// Returns true if it is the output of a process with this result, of which nothing was captured.
fn is_silent(output: &ChildExecutionOutputDescription<LiveSpec>, outcome: ExecutionResult) -> bool {
    matches!(
        output,
        ChildExecutionOutputDescription::Output {
            result: Some(result),
            output: ChildOutputDescription::Split {
                stdout: None,
                stderr: None,
            },
            errors: None,
        } if is_result(result, outcome)
    )
}

/// Returns true if it is this result, with no name of a signal.
fn is_result(found: &ExecutionResultDescription, outcome: ExecutionResult) -> bool {
    *found == ExecutionResultDescription::from_status(outcome, None)
}

/// Returns an event of this kind, made one minute into a run.
fn event_of(kind: TestEventKind<'_>) -> ReporterEvent<'_> {
    let event = TestEvent {
        timestamp: LAST,
        elapsed: Duration::from_secs(60),
        kind,
    };
    ReporterEvent::Test(Box::new(event))
}

/// Returns the kind of an event, if it has one.
fn kind_of<'e, 'a>(event: &'e ReporterEvent<'a>) -> Option<&'e TestEventKind<'a>> {
    match event {
        ReporterEvent::Tick => None,
        ReporterEvent::Test(event) => Some(&event.kind),
    }
}

/// Returns true if the event has the times that `event_of` gives it.
fn has_its_times(event: &ReporterEvent<'_>) -> bool {
    match event {
        ReporterEvent::Tick => false,
        ReporterEvent::Test(event) => {
            event.timestamp == LAST && event.elapsed == Duration::from_secs(60)
        }
    }
}

#[test]
fn an_event_says_when_it_was_made() {
    let event = event_of(TestEventKind::InfoFinished { missing: 0 });
    assert!(has_its_times(&event));
}
