// Made by tools/erase from crates/test_report_run/src/status.rt. Do not edit.
//! The exit status of a run.

use deodarsieve::RunOutcome;

/// Returns the exit status of a run with this outcome. It is 0 if the run succeeded, or if it had no tests
/// and `no_tests_pass` is true, and 1 otherwise.
pub fn exit_status(outcome: RunOutcome, no_tests_pass: bool) -> u8 {
    let passes = match outcome {
        RunOutcome::Success => true,
        RunOutcome::NoTestsRun => no_tests_pass,
        RunOutcome::Cancelled { .. } | RunOutcome::Failed { .. } => false,
    };
    u8::from(!passes)
}
