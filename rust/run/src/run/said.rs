// Made by tools/erase from crates/test_report_run/src/said.rt. Do not edit.
//! The numbers in the last lines of a suite.

use crate::events::event::SuiteEnd;
use crate::notes::note::SaidNumbers;
use crate::run::error::RunError;

/// Adds two numbers that may be absent. The sum is absent only if both are. Fails if the sum does not
/// fit.
pub(crate) fn sum(a: Option<u128>, b: Option<u128>) -> Result<Option<u128>, RunError> {
    match (a, b) {
        (Some(a), Some(b)) => Ok(Some(a.checked_add(b).ok_or(RunError::CounterFull)?)),
        (Some(a), None) => Ok(Some(a)),
        (None, b) => Ok(b),
    }
}

/// Adds a number of a line. The sum is absent only if both numbers are. Fails if the sum does not fit.
fn with_number(a: Option<u128>, b: Option<u64>) -> Result<Option<u128>, RunError> {
    match b {
        Some(b) => sum(a, Some(u128::from(b))),
        None => Ok(a),
    }
}

/// Adds two times that may be absent. The sum is absent only if both are. A sum that does not fit is the
/// greatest number that does.
pub(crate) fn time_sum(a: Option<u64>, b: Option<u64>) -> Option<u64> {
    match (a, b) {
        (Some(a), Some(b)) => Some(a.saturating_add(b)),
        (Some(a), None) => Some(a),
        (None, b) => b,
    }
}

/// The numbers and the verdict in the last lines of a suite. The numbers of several lines are added.
#[derive(Clone, Copy, Debug, Default)]
pub(crate) struct Said {
    pub(crate) failed_verdict: bool,
    pub(crate) passed: Option<u128>,
    pub(crate) failed: Option<u128>,
    pub(crate) ignored: Option<u128>,
    pub(crate) measured: Option<u128>,
    pub(crate) time: Option<u64>,
}

impl Said {
    /// Adds the numbers and the verdict of one more line. Fails if a sum does not fit.
    pub(crate) fn with_line(self, end: SuiteEnd<'_>) -> Result<Said, RunError> {
        Ok(Said {
            failed_verdict: self.failed_verdict || end.failed_verdict,
            passed: with_number(self.passed, end.passed)?,
            failed: with_number(self.failed, end.failed)?,
            ignored: with_number(self.ignored, end.ignored)?,
            measured: with_number(self.measured, end.measured)?,
            time: time_sum(self.time, end.time),
        })
    }

    /// Returns the verdict, and how many tests passed and failed. Measured benchmarks count as passed. Fails
    /// if the number of passed tests does not fit.
    pub(crate) fn numbers(self) -> Result<SaidNumbers, RunError> {
        let passed = match self.passed {
            Some(passed) => sum(Some(passed), self.measured)?,
            None => None,
        };
        Ok(SaidNumbers {
            failed_verdict: self.failed_verdict,
            passed,
            failed: self.failed,
        })
    }
}
