// Made by tools/erase from crates/run_events_stats/src/outcome.rt. Do not edit.
//! The summary of a run and its outcome.

use crate::run_events_results::results::CancelReason;

mod finished;
mod run_outcome;

pub use crate::run_events_stats::outcome::finished::{
    RunFinishedStats, StressFinalRunStats, StressRunStats,
};
pub use crate::run_events_stats::outcome::run_outcome::RunOutcome;

/// The summary of a finished run by its counters. The exit status of a runner follows from it.
#[derive(Clone, Copy, Debug, PartialEq, Eq)]
#[cfg_attr(
    feature = "serde",
    derive(serde::Serialize, serde::Deserialize),
    serde(rename_all = "kebab-case", tag = "outcome")
)]
pub enum FinalRunStats {
    /// All setup scripts and tests that were to run did run, at least one test did, and none failed.
    Success,

    /// Nothing failed and all that was to run did run, but there was no test.
    NoTestsRun,

    /// The run ended early, or something failed in a run that was cancelled for another reason.
    Cancelled {
        /// Why the run was cancelled, if a reason was given.
        reason: Option<CancelReason>,

        /// The step at which it failed or was cancelled.
        kind: RunStatsFailureKind,
    },

    /// A setup script or a test failed.
    Failed {
        /// The step at which it failed or was cancelled.
        kind: RunStatsFailureKind,
    },
}

impl FinalRunStats {
    /// Returns true if the run was successful: a test ran, nothing failed, and nothing that was to
    /// run is missing.
    ///
    /// ```
    /// use deodarsieve::RunStats;
    ///
    /// let stats = RunStats { initial_run_count: 1, finished_count: 1, passed: 1, ..RunStats::default() };
    /// assert!(stats.summarize_final().is_success());
    /// assert!(!RunStats::default().summarize_final().is_success());
    /// ```
    #[must_use]
    pub fn is_success(self) -> bool {
        match self {
            FinalRunStats::Success => true,
            FinalRunStats::NoTestsRun
            | FinalRunStats::Cancelled { .. }
            | FinalRunStats::Failed { .. } => false,
        }
    }
}

/// The step of a run at which it failed or was cancelled.
#[derive(Clone, Copy, Debug, PartialEq, Eq)]
#[cfg_attr(
    feature = "serde",
    derive(serde::Serialize, serde::Deserialize),
    serde(rename_all = "kebab-case", tag = "step")
)]
pub enum RunStatsFailureKind {
    /// A setup script, before any test.
    SetupScript,

    /// The tests.
    Test {
        /// The number of tests that were to run.
        initial_run_count: usize,

        /// The number of tests that did not finish, or 0 if more finished than were to run.
        not_run: usize,
    },
}

impl RunStatsFailureKind {
    /// Returns the step without its numbers.
    #[must_use]
    pub fn step(&self) -> RunFailureStep {
        match self {
            RunStatsFailureKind::SetupScript => RunFailureStep::SetupScript,
            RunStatsFailureKind::Test { .. } => RunFailureStep::Test,
        }
    }
}

/// The step of a run at which it failed or was cancelled, without numbers. If sub-runs failed at
/// different steps, the greater step is that of the repeated run.
#[derive(Clone, Copy, Debug, PartialEq, Eq, PartialOrd, Ord)]
pub enum RunFailureStep {
    /// The tests.
    Test,

    /// A setup script.
    SetupScript,
}
