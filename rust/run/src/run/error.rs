// Made by tools/erase from crates/test_report_run/src/error.rt. Do not edit.
//! The errors of a run that cannot be counted.

use deodarsieve::CounterFull;

/// Why a run cannot be counted.
#[derive(Clone, Copy, Debug, PartialEq, Eq)]
pub enum RunError {
    /// A number of the run does not fit its counter: a number of tests, suites, prints, headings, or failed tests and
    /// contradictions does not fit `usize`, or a sum of numbers in last lines of suites does not fit 128 bits.
    CounterFull,
}

impl From<CounterFull> for RunError {
    fn from(_: CounterFull) -> RunError {
        RunError::CounterFull
    }
}

/// Increments a counter. Fails if it is `usize::MAX`.
pub(crate) fn one_more(count: usize) -> Result<usize, RunError> {
    count.checked_add(1).ok_or(RunError::CounterFull)
}
