// Made by tools/erase from crates/run_events_stats/src/outcome/finished.rt. Do not edit.
//! The statistics of a finished run.

use crate::run_events_results::stress::StressIndex;
use crate::run_events_stats::outcome::FinalRunStats;
use crate::run_events_stats::stats::RunStats;

/// The statistics of a finished run. They are in the last event of a run.
#[derive(Clone, Copy, Debug, PartialEq, Eq)]
#[cfg_attr(
    feature = "serde",
    derive(serde::Serialize, serde::Deserialize),
    serde(rename_all = "kebab-case", tag = "type")
)]
pub enum RunFinishedStats {
    /// The run was not repeated.
    Single(RunStats),

    /// The run was repeated.
    Stress(StressRunStats),
}

impl RunFinishedStats {
    /// Returns the summary of the run, or of the last sub-run if the run was repeated.
    #[must_use]
    pub fn final_stats(&self) -> FinalRunStats {
        match self {
            RunFinishedStats::Single(stats) => stats.summarize_final(),
            RunFinishedStats::Stress(stats) => stats.last_final_stats,
        }
    }
}

/// The statistics of a repeated run.
#[derive(Clone, Copy, Debug, PartialEq, Eq)]
#[cfg_attr(
    feature = "serde",
    derive(serde::Serialize, serde::Deserialize),
    serde(rename_all = "kebab-case")
)]
pub struct StressRunStats {
    /// How many sub-runs are complete (`current`), and how many there were to be.
    pub completed: StressIndex,

    /// The number of sub-runs that succeeded, as the runner counts them.
    pub success_count: u32,

    /// The number of sub-runs that failed, as the runner counts them.
    pub failed_count: u32,

    /// The summary of the last sub-run.
    pub last_final_stats: FinalRunStats,
}

impl StressRunStats {
    /// Returns the summary of the repeated run: `Failed` if `failed_count` is not 0, or else
    /// `Cancelled` or `NoTestsRun` if the last sub-run was that, or else `Success`. This includes a
    /// last sub-run that failed but is not in `failed_count`.
    ///
    /// This is nextest's summary. It knows only `failed_count` and the last sub-run, so it can differ
    /// from `RunOutcome::of_sub_runs`, which is given all of them.
    #[must_use]
    pub fn summarize_final(&self) -> StressFinalRunStats {
        if self.failed_count > 0 {
            return StressFinalRunStats::Failed;
        }
        match self.last_final_stats {
            FinalRunStats::Cancelled { .. } => StressFinalRunStats::Cancelled,
            FinalRunStats::NoTestsRun => StressFinalRunStats::NoTestsRun,
            FinalRunStats::Success | FinalRunStats::Failed { .. } => StressFinalRunStats::Success,
        }
    }
}

/// The summary of a repeated run.
#[derive(Clone, Copy, Debug, PartialEq, Eq)]
pub enum StressFinalRunStats {
    /// No sub-run was counted as failed, and the last was neither cancelled nor without tests.
    Success,

    /// No sub-run was counted as failed, and the last ran no tests.
    NoTestsRun,

    /// No sub-run was counted as failed, and the last was cancelled.
    Cancelled,

    /// At least one sub-run was counted as failed.
    Failed,
}
