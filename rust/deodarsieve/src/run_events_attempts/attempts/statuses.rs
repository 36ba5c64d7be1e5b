// Made by tools/erase from crates/run_events_attempts/src/attempts/statuses.rt. Do not edit.
//! The attempts of a finished test.

use crate::run_events_attempts::attempts::ExecuteStatus;
use crate::run_events_attempts::attempts::description::ExecutionDescription;
use crate::run_events_attempts::child::OutputSpec;
use crate::run_events_results::config::FlakyResult;
use crate::run_events_results::view::TestView;
use alloc::vec::Vec;
use core::fmt;

/// All attempts of a finished test, in order, and how the test counts if it is flaky. There is always
/// at least one attempt.
///
/// ```
/// use deodarsieve::{ExecutionStatuses, LiveSpec};
///
/// fn word_of(test: &ExecutionStatuses<LiveSpec>) -> &'static str {
///     let last = test.last_status();
///     if test.len() > 1 && last.result.is_success() { "flaky" } else { last.result.as_static_str() }
/// }
/// ```
#[cfg_attr(
    feature = "serde",
    derive(serde::Serialize),
    serde(
        rename_all = "kebab-case",
        bound(
            serialize = "S::ChildOutputDesc: serde::Serialize",
            deserialize = "S::ChildOutputDesc: serde::Deserialize<'de>"
        )
    )
)]
pub struct ExecutionStatuses<S: OutputSpec> {
    pub(crate) statuses: Vec<ExecuteStatus<S>>,
    pub(crate) flaky_result: FlakyResult,
}

/// The error if a list of attempts is empty. A finished test has at least one attempt.
#[derive(Clone, Copy, Debug, PartialEq, Eq)]
pub struct EmptyStatuses;

impl fmt::Display for EmptyStatuses {
    fn fmt(&self, f: &mut fmt::Formatter<'_>) -> fmt::Result {
        f.write_str("a finished test has at least one attempt, but the list of attempts is empty")
    }
}

impl<S: OutputSpec> ExecutionStatuses<S> {
    /// Returns a test with these attempts, in order.
    ///
    /// `statuses` must not be empty; [`ExecutionStatuses::try_from_parts`] tests it.
    ///
    /// # Panics
    ///
    /// Panics if `statuses` is empty.
    #[track_caller]
    #[must_use]
    pub fn new(statuses: Vec<ExecuteStatus<S>>, flaky_result: FlakyResult) -> Self {
        assert!(
            !statuses.is_empty(),
            "a finished test has at least one attempt: `try_from_parts` tests it"
        );
        ExecutionStatuses {
            statuses,
            flaky_result,
        }
    }

    /// Returns a test with these attempts, in order.
    ///
    /// # Errors
    ///
    /// The error is [`EmptyStatuses`] if `statuses` is empty, for example in a damaged record.
    pub fn try_from_parts(
        statuses: Vec<ExecuteStatus<S>>,
        flaky_result: FlakyResult,
    ) -> Result<Self, EmptyStatuses> {
        if statuses.is_empty() {
            return Err(EmptyStatuses);
        }
        Ok(ExecutionStatuses::new(statuses, flaky_result))
    }

    /// Returns how the test counts if it is flaky.
    #[must_use]
    pub fn flaky_result(&self) -> FlakyResult {
        self.flaky_result
    }

    /// Returns the last attempt, which decides how the test counts.
    #[must_use]
    pub fn last_status(&self) -> &ExecuteStatus<S> {
        self.statuses.last().unwrap()
    }

    /// Returns the parts of the test that decide its counters and its levels.
    #[must_use]
    pub fn view(&self) -> TestView<'_> {
        let last = self.last_status();
        TestView {
            result: &last.result,
            attempts: self.len(),
            is_slow: last.is_slow,
            flaky_result: self.flaky_result,
        }
    }

    /// Returns the number of attempts, which is at least 1.
    #[must_use]
    pub fn len(&self) -> usize {
        self.statuses.len()
    }

    /// Returns an iterator over the attempts, in order.
    pub fn iter(&self) -> ExecutionStatusesIter<'_, S> {
        self.statuses.iter()
    }

    /// Describes the test: a failure if the last attempt did not succeed, or else a success if there
    /// is one attempt, or else flaky.
    #[must_use]
    pub fn describe(&self) -> ExecutionDescription<'_, S> {
        ExecutionDescription::of_attempts(self.statuses.as_slice(), self.flaky_result)
    }
}

/// An iterator over the attempts of a test.
pub type ExecutionStatusesIter<'a, S> = core::slice::Iter<'a, ExecuteStatus<S>>;

/// Iterates over the attempts, in order.
impl<'a, S: OutputSpec> IntoIterator for &'a ExecutionStatuses<S> {
    type Item = &'a ExecuteStatus<S>;

    type IntoIter = ExecutionStatusesIter<'a, S>;

    fn into_iter(self) -> ExecutionStatusesIter<'a, S> {
        self.iter()
    }
}

/// Iterates over the attempts, in order.
impl<S: OutputSpec> IntoIterator for ExecutionStatuses<S> {
    type Item = ExecuteStatus<S>;

    type IntoIter = alloc::vec::IntoIter<ExecuteStatus<S>>;

    fn into_iter(self) -> alloc::vec::IntoIter<ExecuteStatus<S>> {
        let ExecutionStatuses {
            statuses,
            flaky_result: _,
        } = self;
        statuses.into_iter()
    }
}
