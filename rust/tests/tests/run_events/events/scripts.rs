//! Setup scripts are started, slow and finished.

use super::{THIRD, are, event_of, is_result, is_silent, kind_of, owned, script_id};
use deodarsieve::{
    LiveSpec, Moment, ReporterEvent, ScriptId, SetupScriptExecuteStatus, TestEventKind,
};
use deodarsieve_tests::fixtures::{LEAK_FAIL, finished_script};
use std::time::Duration;

/// Returns true if it is the one script, run by a shell with these arguments.
fn is_script(id: &ScriptId, program: &str, args: &[String], wanted: &[&str]) -> bool {
    id.0.as_str() == "make-database" && program == "sh" && are(args, wanted)
}

fn started() -> ReporterEvent<'static> {
    let script_id = script_id();
    let program = String::from("sh");
    let args = owned(&["-c", "make"]);
    let kind = TestEventKind::SetupScriptStarted {
        stress_index: THIRD,
        index: 1,
        total: 4,
        script_id,
        program,
        args,
        no_capture: true,
    };
    event_of(kind)
}

/// Returns true if its fields are those that `started` put in.
fn is_started(event: &ReporterEvent<'_>) -> bool {
    let Some(TestEventKind::SetupScriptStarted {
        stress_index,
        index,
        total,
        script_id,
        program,
        args,
        no_capture,
    }) = kind_of(event)
    else {
        return false;
    };
    (*index, *total) == (1, 4)
        && *no_capture
        && *stress_index == THIRD
        && is_script(script_id, program, args, &["-c", "make"])
}

fn slow() -> ReporterEvent<'static> {
    let script_id = script_id();
    let program = String::from("sh");
    let args = owned(&[]);
    let kind = TestEventKind::SetupScriptSlow {
        stress_index: None,
        script_id,
        program,
        args,
        elapsed: Duration::from_secs(30),
        will_terminate: true,
    };
    event_of(kind)
}

/// Returns true if its fields are those that `slow` put in.
fn is_slow(event: &ReporterEvent<'_>) -> bool {
    let Some(TestEventKind::SetupScriptSlow {
        stress_index,
        script_id,
        program,
        args,
        elapsed,
        will_terminate,
    }) = kind_of(event)
    else {
        return false;
    };
    stress_index.is_none()
        && *will_terminate
        && is_script(script_id, program, args, &[])
        && *elapsed == Duration::from_secs(30)
}

fn finished() -> ReporterEvent<'static> {
    let script_id = script_id();
    let program = String::from("sh");
    let args = owned(&["-c"]);
    let kind = TestEventKind::SetupScriptFinished {
        stress_index: THIRD,
        index: 3,
        total: 4,
        script_id,
        program,
        args,
        junit_store_success_output: false,
        junit_store_failure_output: true,
        no_capture: false,
        run_status: finished_script(LEAK_FAIL),
    };
    event_of(kind)
}

/// Returns true if the script leaked, which counts as failed, and is otherwise the one that
/// `finished_script` makes.
fn is_leak(status: &SetupScriptExecuteStatus<LiveSpec>) -> bool {
    is_silent(&status.output, LEAK_FAIL)
        && is_result(&status.result, LEAK_FAIL)
        && status.start_time == Moment::UNIX_EPOCH
        && status.time_taken.is_zero()
        && !status.is_slow
        && status.env_map.is_none()
        && status.error_summary.is_none()
}

/// Returns true if its fields are those that `finished` put in.
fn is_finished(event: &ReporterEvent<'_>) -> bool {
    let Some(TestEventKind::SetupScriptFinished {
        stress_index,
        index,
        total,
        script_id,
        program,
        args,
        junit_store_success_output,
        junit_store_failure_output,
        no_capture,
        run_status,
    }) = kind_of(event)
    else {
        return false;
    };
    (*index, *total) == (3, 4)
        && !*junit_store_success_output
        && *junit_store_failure_output
        && !*no_capture
        && *stress_index == THIRD
        && is_script(script_id, program, args, &["-c"])
        && is_leak(run_status)
}

#[test]
fn scripts_are_read_back() {
    assert!(is_started(&started()), "SetupScriptStarted");
    assert!(is_slow(&slow()), "SetupScriptSlow");
    assert!(is_finished(&finished()), "SetupScriptFinished");
}
