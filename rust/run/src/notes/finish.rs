// Made by tools/erase from crates/test_report_run_notes/src/finish.rt. Do not edit.
//! How a test finished, as the statistics and levels of the layer take it.

use crate::notes::note::FailureKind;
use deodarsieve::FinishedTest;
use deodarsieve::{ExecutionResultDescription, FailureDescription};
use deodarsieve::{FlakyResult, SlowTimeoutResult};

/// The exit code of Rust's test harness if a test failed.
const HARNESS_FAILED: i32 = 101;

/// How a test finished.
#[derive(Clone, Copy, Debug, PartialEq, Eq)]
pub enum Finish {
    /// It passed, or is flaky and counts as passed.
    Passed,

    /// It is flaky, and counts as failed.
    FlakyFailed,

    /// It failed.
    Failed,

    /// It ran out of time.
    TimedOut,
}

impl Finish {
    /// Returns how a test finished that failed in this way.
    pub fn of_failure(kind: &FailureKind) -> Finish {
        match kind {
            FailureKind::TimedOut => Finish::TimedOut,
            FailureKind::Flaky => Finish::FlakyFailed,
            FailureKind::Failed | FailureKind::WithoutEnd | FailureKind::Crashed(_) => {
                Finish::Failed
            }
        }
    }
}

/// Returns the result of a test, as the statistics take it. Lines do not have the exit code of a failed
/// test, so it is the one of Rust's test harness.
fn described(finish: Finish) -> ExecutionResultDescription {
    match finish {
        Finish::Passed | Finish::FlakyFailed => ExecutionResultDescription::Pass,
        Finish::Failed => ExecutionResultDescription::Fail {
            failure: FailureDescription::ExitCode {
                code: HARNESS_FAILED,
            },
            leaked: false,
        },
        Finish::TimedOut => ExecutionResultDescription::Timeout {
            result: SlowTimeoutResult::Fail,
        },
    }
}

/// Returns a test that finished in this way, after this number of attempts.
pub fn finished_test(finish: Finish, attempts: usize, is_slow: bool) -> FinishedTest {
    FinishedTest {
        result: described(finish),
        attempts,
        is_slow,
        flaky_result: match finish {
            Finish::FlakyFailed => FlakyResult::Fail,
            Finish::Passed | Finish::Failed | Finish::TimedOut => FlakyResult::Pass,
        },
    }
}
