// Made by tools/erase from crates/run_events_results/src/config.rt. Do not edit.
//! The settings that decide how results count and what a reporter shows.

/// How a flaky test counts. A test is flaky if its last attempt succeeded and is not its first.
#[derive(Clone, Copy, Debug, Default, PartialEq, Eq)]
#[cfg_attr(
    feature = "serde",
    derive(serde::Serialize, serde::Deserialize),
    serde(rename_all = "kebab-case")
)]
pub enum FlakyResult {
    /// It counts as passed.
    #[default]
    Pass,

    /// It counts as failed.
    Fail,
}

/// How a test counts that exited successfully while a process that it started still held one of its
/// handles open.
#[derive(Clone, Copy, Debug, PartialEq, Eq)]
#[cfg_attr(
    feature = "serde",
    derive(serde::Serialize, serde::Deserialize),
    serde(rename_all = "kebab-case")
)]
pub enum LeakTimeoutResult {
    /// The leak is noted and the test passes.
    Pass,

    /// The leak fails the test.
    Fail,
}

/// How a test counts that was ended because its time ran out.
#[derive(Clone, Copy, Debug, PartialEq, Eq)]
#[cfg_attr(
    feature = "serde",
    derive(serde::Serialize, serde::Deserialize),
    serde(rename_all = "kebab-case")
)]
pub enum SlowTimeoutResult {
    /// The test is meant to run out of time, and passes.
    Pass,

    /// Running out of time fails the test.
    Fail,
}

/// When the captured output of a test is displayed.
///
/// ```
/// use deodarsieve::TestOutputDisplay;
///
/// fn is_displayed(display: TestOutputDisplay) -> bool {
///     display.is_immediate() || display.is_final()
/// }
///
/// assert!(is_displayed(TestOutputDisplay::Final));
/// assert!(!is_displayed(TestOutputDisplay::Never));
/// ```
#[derive(Clone, Copy, Debug, PartialEq, Eq)]
#[cfg_attr(
    feature = "serde",
    derive(serde::Deserialize),
    serde(rename_all = "kebab-case")
)]
pub enum TestOutputDisplay {
    /// As soon as the test finishes.
    Immediate,

    /// As soon as the test finishes, and once more at the end of the run.
    ImmediateFinal,

    /// At the end of the run.
    Final,

    /// At no time.
    Never,
}

impl TestOutputDisplay {
    /// Returns true if output is displayed as soon as the test finishes.
    #[must_use]
    pub fn is_immediate(self) -> bool {
        match self {
            TestOutputDisplay::Immediate | TestOutputDisplay::ImmediateFinal => true,
            TestOutputDisplay::Final | TestOutputDisplay::Never => false,
        }
    }

    /// Returns true if output is displayed at the end of the run.
    #[must_use]
    pub fn is_final(self) -> bool {
        match self {
            TestOutputDisplay::Final | TestOutputDisplay::ImmediateFinal => true,
            TestOutputDisplay::Immediate | TestOutputDisplay::Never => false,
        }
    }
}
