// Made by tools/erase from crates/run_events_results/src/levels.rt. Do not edit.
//! The levels of tests, and what a reporter shows of a test at its levels.

mod of_result;
mod output;

/// The level of a finished attempt or test, ordered from the one that needs most attention. A
/// reporter with a level writes a line for the tests of that level and of every lesser level.
#[derive(Clone, Copy, Debug, PartialEq, Eq, PartialOrd, Ord)]
#[cfg_attr(not(feature = "exhaustive"), non_exhaustive)]
#[cfg_attr(
    feature = "serde",
    derive(serde::Deserialize),
    serde(rename_all = "kebab-case")
)]
pub enum StatusLevel {
    /// No line.
    None,

    /// Tests that failed.
    Fail,

    /// Tests that succeeded after a retry, and attempts that are retried.
    Retry,

    /// Tests that are still running after the slow timeout, and finished tests whose timeout counts as
    /// passed. That a finished test was slow does not change this level.
    Slow,

    /// Tests that left a handle open.
    Leak,

    /// Tests that passed.
    Pass,

    /// Tests that were skipped.
    Skip,

    /// All tests.
    All,
}

/// The level of a finished test at the end of the run, ordered from the one that needs most
/// attention. A reporter with a level lists the tests of that level and of every lesser level.
#[derive(Clone, Copy, Debug, PartialEq, Eq, PartialOrd, Ord)]
#[cfg_attr(not(feature = "exhaustive"), non_exhaustive)]
#[cfg_attr(
    feature = "serde",
    derive(serde::Deserialize),
    serde(rename_all = "kebab-case")
)]
pub enum FinalStatusLevel {
    /// No test.
    None,

    /// Tests that failed.
    Fail,

    /// Tests that succeeded after a retry.
    #[cfg_attr(feature = "serde", serde(alias = "retry"))]
    Flaky,

    /// Tests that took longer than the slow timeout.
    Slow,

    /// Tests that were skipped.
    Skip,

    /// Tests that left a handle open.
    Leak,

    /// Tests that passed.
    Pass,

    /// All tests.
    All,
}

/// The levels of a reporter. The defaults of nextest are `Pass` and `Flaky`.
///
/// ```
/// use deodarsieve::{
///     CancelReason, OutputOnTestFinished, StatusLevels, TestOutputDisplay, TestView,
/// };
///
/// fn shown(
///     levels: StatusLevels,
///     display: TestOutputDisplay,
///     reason: Option<CancelReason>,
///     test: &TestView<'_>,
/// ) -> OutputOnTestFinished {
///     let (level, final_level) = (test.status_level(), test.final_status_level());
///     levels.compute_output_on_test_finished(display, reason, level, final_level, test.result)
/// }
/// ```
#[derive(Clone, Copy, Debug, PartialEq, Eq)]
pub struct StatusLevels {
    /// The level of the attempts and tests that get a line.
    pub status_level: StatusLevel,

    /// The level of the tests that are listed at the end of the run.
    pub final_status_level: FinalStatusLevel,
}

/// What a reporter does when a test has finished.
#[derive(Clone, Copy, Debug, PartialEq, Eq)]
pub struct OutputOnTestFinished {
    /// True if the reporter writes a line with the status of the test.
    pub write_status_line: bool,

    /// True if the reporter displays the output of the test at once.
    pub show_immediate: bool,

    /// What the reporter stores for the end of the run.
    pub store_final: OutputStoreFinal,
}

/// What a reporter stores of a finished test for the end of the run.
#[derive(Clone, Copy, Debug, PartialEq, Eq)]
pub enum OutputStoreFinal {
    /// Nothing. The test is not listed at the end.
    No,

    /// The test is listed at the end.
    Yes {
        /// True if its output is displayed there too.
        display_output: bool,
    },
}
