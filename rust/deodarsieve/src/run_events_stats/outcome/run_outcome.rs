// Made by tools/erase from crates/run_events_stats/src/outcome/run_outcome.rt. Do not edit.
//! The outcome of a run, or of all sub-runs of a repeated run.

use crate::run_events_stats::outcome::{FinalRunStats, RunFailureStep};
use crate::run_events_stats::stats::{FinishedRun, RunStats};

/// The outcome of a run: its summary without the reason and the numbers. The outcome of a repeated run
/// is the highest of those of its sub-runs.
///
/// From the lowest to the highest, the outcomes are `NoTestsRun`, `Success`, `Cancelled` and `Failed`.
/// Of two that are cancelled, or of two that failed, the one at a setup script is higher.
///
/// ```
/// use deodarsieve::{FinishedUnit, RunOutcome, RunStart, RunStats};
///
/// fn exit_status(units: &[FinishedUnit<'_>], start: RunStart) -> u8 {
///     let stats = RunStats::of_run(units, start);
///     match RunOutcome::from_final_stats(stats.summarize_final()) {
///         RunOutcome::Success => 0,
///         RunOutcome::NoTestsRun => 4,
///         RunOutcome::Cancelled { .. } | RunOutcome::Failed { .. } => 100,
///     }
/// }
///
/// let start = RunStart {
///     initial_run_count: 0,
///     setup_scripts_initial_count: 0,
///     skipped: 0,
///     cancel_reason: None,
/// };
/// assert_eq!(exit_status(&[], start), 4);
/// ```
#[derive(Clone, Copy, Debug, PartialEq, Eq)]
#[must_use]
pub enum RunOutcome {
    /// The run was successful. For a repeated run: at least one sub-run was successful, and every
    /// other one was successful or ran no tests.
    Success,

    /// Nothing failed and all that was to run did run, but there was no test. For a repeated run:
    /// this holds for every sub-run.
    NoTestsRun,

    /// The run was cancelled. For a repeated run: a sub-run was cancelled, and none failed.
    Cancelled {
        /// The step at which it was cancelled. For a repeated run: the greatest step of a cancelled
        /// sub-run.
        step: RunFailureStep,
    },

    /// The run failed. For a repeated run: a sub-run failed.
    Failed {
        /// The step at which it failed. For a repeated run: the greatest step of a failed sub-run.
        step: RunFailureStep,
    },
}

impl RunOutcome {
    /// Returns the outcome of a run or of a sub-run.
    pub fn from_final_stats(stats: FinalRunStats) -> Self {
        match stats {
            FinalRunStats::Success => RunOutcome::Success,
            FinalRunStats::NoTestsRun => RunOutcome::NoTestsRun,
            FinalRunStats::Cancelled { kind, .. } => RunOutcome::Cancelled { step: kind.step() },
            FinalRunStats::Failed { kind } => RunOutcome::Failed { step: kind.step() },
        }
    }

    /// Returns the higher of two outcomes. The result for several outcomes does not depend on the
    /// order in which they are combined, and `NoTestsRun` does not change it.
    pub fn combine(self, other: Self) -> Self {
        self.higher(other)
    }

    /// Returns the outcome of a repeated run, given the summaries of its sub-runs: the highest of
    /// their outcomes, or `NoTestsRun` if there are none.
    ///
    /// It can differ from `StressRunStats::summarize_final`, which knows only the last sub-run and how
    /// many failed.
    pub fn of_sub_runs(sub_runs: &[FinalRunStats]) -> Self {
        let mut highest = RunOutcome::NoTestsRun;
        for summary in sub_runs {
            highest = highest.combine(RunOutcome::from_final_stats(*summary));
        }
        highest
    }

    /// Returns the outcome of a repeated run, given the finished units and the start of each of its
    /// sub-runs: the highest of their outcomes, or `NoTestsRun` if there are none.
    pub fn of_runs(runs: &[FinishedRun<'_>]) -> Self {
        let mut highest = RunOutcome::NoTestsRun;
        for run in runs {
            let stats = RunStats::of_run(run.units, run.start);
            highest = highest.combine(RunOutcome::from_final_stats(stats.summarize_final()));
        }
        highest
    }

    /// Returns the higher of two outcomes, by their cases.
    fn higher(self, other: Self) -> Self {
        match (self, other) {
            (RunOutcome::Failed { step: a }, RunOutcome::Failed { step: b }) => {
                RunOutcome::Failed { step: a.max(b) }
            }
            (RunOutcome::Failed { .. }, _) => self,
            (_, RunOutcome::Failed { .. }) => other,
            (RunOutcome::Cancelled { step: a }, RunOutcome::Cancelled { step: b }) => {
                RunOutcome::Cancelled { step: a.max(b) }
            }
            (RunOutcome::Cancelled { .. }, _) => self,
            (_, RunOutcome::Cancelled { .. }) => other,
            (RunOutcome::Success, _) => self,
            (RunOutcome::NoTestsRun, _) => other,
        }
    }
}
