//! A panic names the place of the call whose condition is not met, and no place in the crate.
//!
//! This is a test program of its own, because it sets the panic hook of its process.

#[allow(dead_code, reason = "the other tests use the rest")]
mod common;

use std::panic::{self, AssertUnwindSafe, catch_unwind};
use std::sync::Mutex;

use common::{attempt, failed, not_loaded, script};
use deodarsieve::{
    ChildOutputDescription, ExecutionDescription, ExecutionResultDescription, ExecutionStatuses,
    FlakyResult, LiveSpec, RunStats, TestView, UnitErrorDescription, UnitKind,
};

const PASS: ExecutionResultDescription = ExecutionResultDescription::Pass;

/// Counters in which no test or script that passes has room, and whose failures do not fit `usize`.
fn full() -> RunStats {
    RunStats {
        passed: usize::MAX,
        setup_scripts_passed: usize::MAX,
        failed: usize::MAX,
        exec_failed: 1,
        setup_scripts_failed: usize::MAX,
        setup_scripts_timed_out: 1,
        ..RunStats::default()
    }
}

/// Calls whose conditions are not met.
fn calls() -> Vec<Box<dyn Fn()>> {
    let status = attempt(failed());
    vec![
        Box::new(|| {
            drop(ExecutionStatuses::<LiveSpec>::new(
                vec![],
                FlakyResult::Pass,
            ))
        }),
        Box::new({
            let single_status = status.clone();
            move || {
                let success = ExecutionDescription::Success {
                    single_status: &single_status,
                };
                let _ = success.status_level();
            }
        }),
        Box::new(move || {
            let success = ExecutionDescription::Success {
                single_status: &status,
            };
            let _ = success.final_status_level();
        }),
        Box::new(|| {
            let _ = ChildOutputDescription::NotLoaded.stdout_stderr_len();
        }),
        Box::new(|| {
            let _ = UnitErrorDescription::new(UnitKind::Test, &not_loaded(failed()));
        }),
        Box::new(|| {
            let _ = full().failed_count();
        }),
        Box::new(|| {
            let _ = full().failed_setup_script_count();
        }),
        Box::new(|| full().on_test_view(&TestView::new(&PASS))),
        Box::new(|| {
            let test = ExecutionStatuses::new(vec![attempt(PASS)], FlakyResult::Pass);
            full().on_test_finished(&test);
        }),
        Box::new(|| full().on_script_result(&PASS)),
        Box::new(|| full().on_setup_script_finished(&script(PASS))),
    ]
}

#[test]
fn a_panic_names_the_place_of_the_call() {
    static FILES: Mutex<Vec<String>> = Mutex::new(Vec::new());
    panic::set_hook(Box::new(|info| {
        let file = info.location().map(|location| location.file().to_string());
        FILES.lock().unwrap().extend(file);
    }));
    let calls = calls();
    let returned = calls
        .iter()
        .filter(|call| catch_unwind(AssertUnwindSafe(call)).is_ok())
        .count();
    drop(panic::take_hook());
    assert_eq!(returned, 0);
    assert_eq!(*FILES.lock().unwrap(), vec![file!(); calls.len()]);
}
