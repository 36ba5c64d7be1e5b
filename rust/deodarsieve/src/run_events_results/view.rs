// Made by tools/erase from crates/run_events_results/src/view.rt. Do not edit.
//! The view of a finished test that decides its counters and its levels.

use crate::run_events_results::config::FlakyResult;
use crate::run_events_results::levels::{FinalStatusLevel, StatusLevel};
use crate::run_events_results::results::ExecutionResultDescription;

/// The parts of a finished test that decide its counters and its levels, borrowed from its
/// attempts. A caller that does not keep attempts can make it from these parts.
#[derive(Clone, Copy, Debug, PartialEq, Eq)]
#[non_exhaustive]
pub struct TestView<'a> {
    /// The result of the last attempt.
    pub result: &'a ExecutionResultDescription,

    /// The number of attempts. 0 counts as 1.
    pub attempts: usize,

    /// True if the last attempt took longer than the slow timeout.
    pub is_slow: bool,

    /// How the test counts if it is flaky, that is if its last attempt succeeded and is not its
    /// first.
    pub flaky_result: FlakyResult,
}

impl<'a> TestView<'a> {
    /// Returns a test with this result at its only attempt, which was not slow. If it is given more
    /// attempts and so is flaky, it counts as passed.
    ///
    /// ```
    /// use deodarsieve::{ExecutionResultDescription, RunStats, TestView};
    ///
    /// let mut stats = RunStats::default();
    /// let mut test = TestView::new(&ExecutionResultDescription::Pass);
    /// test.attempts = 2;
    /// stats.on_test_view(&test);
    /// assert_eq!((stats.passed, stats.flaky), (1, 1));
    /// ```
    #[must_use]
    pub fn new(attempt: &'a ExecutionResultDescription) -> Self {
        TestView {
            result: attempt,
            attempts: 1,
            is_slow: false,
            flaky_result: FlakyResult::Pass,
        }
    }

    /// Returns the same test with this number of attempts.
    #[must_use]
    pub fn with_attempts(mut self, attempts: usize) -> Self {
        self.attempts = attempts;
        self
    }

    /// Returns the same test, whose last attempt took longer than the slow timeout if `is_slow`.
    #[must_use]
    pub fn with_slow(mut self, is_slow: bool) -> Self {
        self.is_slow = is_slow;
        self
    }

    /// Returns the same test with this setting for how it counts if it is flaky.
    #[must_use]
    pub fn with_flaky_result(mut self, flaky_result: FlakyResult) -> Self {
        self.flaky_result = flaky_result;
        self
    }
}

impl TestView<'_> {
    /// Returns the level of the test when it finishes: `Retry` or `Fail` for a flaky test, `Fail` for
    /// a failed one, and for a success at the first attempt the level that [`StatusLevel::of_success`]
    /// returns.
    #[must_use]
    pub fn status_level(&self) -> StatusLevel {
        match StatusLevel::of_success(self.result) {
            Some(_) if self.attempts > 1 => StatusLevel::of_flaky(self.flaky_result),
            Some(level) => level,
            None => StatusLevel::Fail,
        }
    }

    /// Returns the level of the test at the end of the run. It is like the status level, except that
    /// a flaky test which counts as passed is `Flaky`, and that a slow success at the first attempt
    /// is `Slow` whatever its result.
    #[must_use]
    pub fn final_status_level(&self) -> FinalStatusLevel {
        let is_success = self.result.is_success();
        match FinalStatusLevel::of_success(self.result, self.is_slow) {
            Some(_) if is_success && self.attempts > 1 => {
                FinalStatusLevel::of_flaky(self.flaky_result)
            }
            Some(level) if is_success => level,
            Some(_) | None => FinalStatusLevel::Fail,
        }
    }
}

/// A finished test by the parts that decide its counters and its levels.
#[derive(Clone, Debug, PartialEq, Eq)]
pub struct FinishedTest {
    /// The result of the last attempt.
    pub result: ExecutionResultDescription,

    /// The number of attempts. 0 counts as 1.
    pub attempts: usize,

    /// True if the last attempt took longer than the slow timeout.
    pub is_slow: bool,

    /// How the test counts if it is flaky.
    pub flaky_result: FlakyResult,
}

impl FinishedTest {
    /// Returns a view of the test.
    #[must_use]
    pub fn view(&self) -> TestView<'_> {
        TestView {
            result: &self.result,
            attempts: self.attempts,
            is_slow: self.is_slow,
            flaky_result: self.flaky_result,
        }
    }
}
