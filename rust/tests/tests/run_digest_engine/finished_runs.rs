//! The report of finished runs, compared with the text that `count` writes for lines that describe
//! them.

use crate::run_digest_engine::engine::{Engine, SOUND};
use deodarsieve::{CancelReason, FinishedRun, FinishedUnit, FlakyResult, RunStart};
use deodarsieve_cli::run_digest_engine::runs::report_of_runs;
use deodarsieve_tests::fixtures::{EXIT_ONE, LEAK_PASS, PASS, finished_script, finished_test};

/// Lines that describe two runs.
const LINES: &[u8] =
    b"run 1 0 -\ntest fail,pass slow flaky-fail\nsub-run 3 1 interrupt\nscript leak\n";

/// The reports of the two runs, and the line of their outcome.
const REPORTS: &str = "tests 1 passed 0 failed 1 flaky 0\nscripts 0 failed 0\nsummary failed test 1 0\n\
    tests 0 passed 0 failed 0 flaky 0\nscripts 1 failed 0\nsummary cancelled interrupt test 3 3\noutcome failed test\n";

/// Returns the start of a run of this many tests and scripts.
fn start_of(tests: usize, scripts: usize, cancel_reason: Option<CancelReason>) -> RunStart {
    RunStart {
        initial_run_count: tests,
        setup_scripts_initial_count: scripts,
        skipped: 0,
        cancel_reason,
    }
}

/// Returns the report of the runs that [`LINES`] describe.
fn report() -> String {
    let flaky = finished_test(&[EXIT_ONE], PASS, true, FlakyResult::Fail);
    let script = finished_script(LEAK_PASS);
    let tests = [FinishedUnit::Test(&flaky)];
    let scripts = [FinishedUnit::Script(&script)];
    let runs = [
        FinishedRun {
            units: &tests,
            start: start_of(1, 0, None),
        },
        FinishedRun {
            units: &scripts,
            start: start_of(3, 1, Some(CancelReason::Interrupt)),
        },
    ];
    report_of_runs(&runs)
}

#[test]
fn finished_runs_have_the_text_of_their_lines() {
    assert_eq!(report(), REPORTS);
    assert!(Engine::Count.gives(LINES, SOUND, Ok(false), REPORTS.as_bytes()));
}
