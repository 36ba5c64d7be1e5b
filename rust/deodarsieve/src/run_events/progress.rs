// Made by tools/erase from crates/run_events/src/progress.rt. Do not edit.
//! The progress of a repeated run.

use crate::run_events_results::stress::NonZeroDuration;
use alloc::format;
use alloc::string::String;
use core::num::NonZero;
use core::time::Duration;
use uuid::Uuid;

/// How many times a run is repeated.
#[derive(Clone, Copy, Debug, PartialEq, Eq)]
#[cfg_attr(
    feature = "serde",
    derive(serde::Serialize, serde::Deserialize),
    serde(rename_all = "kebab-case", tag = "kind")
)]
pub enum StressCount {
    /// A fixed number of times.
    Count {
        /// The number of times.
        count: NonZero<u32>,
    },

    /// Until it is cancelled.
    Infinite,
}

/// What remains of a repeated run, which is never nothing.
#[derive(Clone, Copy, Debug, PartialEq, Eq)]
pub enum StressRemaining {
    /// A number of sub-runs.
    Count(NonZero<u32>),

    /// The run has no end.
    Infinite,

    /// An amount of time.
    Time(NonZeroDuration),
}

/// The progress of a repeated run. Reporters get it at the start and at the end of each sub-run.
///
/// ```
/// use core::time::Duration;
/// use deodarsieve::StressProgress;
///
/// fn is_over(progress: &StressProgress) -> bool {
///     progress.remaining().is_none()
/// }
///
/// let progress = StressProgress::Time {
///     total: Duration::from_secs(3_600),
///     elapsed: Duration::from_secs(60),
///     completed: 1,
/// };
/// assert!(!is_over(&progress));
/// ```
#[derive(Clone, Copy, Debug, PartialEq, Eq)]
#[cfg_attr(
    feature = "serde",
    derive(serde::Serialize, serde::Deserialize),
    serde(rename_all = "kebab-case", tag = "progress-type")
)]
pub enum StressProgress {
    /// The run is repeated a number of times, or without end.
    Count {
        /// How many times the run is repeated.
        total: StressCount,

        /// The time that the sub-runs have taken so far.
        elapsed: Duration,

        /// The number of completed sub-runs.
        completed: u32,
    },

    /// The run is repeated for a time.
    Time {
        /// How long the run is repeated.
        total: Duration,

        /// The time that the sub-runs have taken so far.
        elapsed: Duration,

        /// The number of completed sub-runs.
        completed: u32,
    },
}

impl StressProgress {
    /// Returns what remains of the run: the number of sub-runs that are not done, or the time that
    /// has not elapsed. Returns `None` if nothing remains, and [`StressRemaining::Infinite`] for a
    /// run without end.
    #[must_use]
    pub fn remaining(&self) -> Option<StressRemaining> {
        match self {
            StressProgress::Count {
                total: StressCount::Count { count },
                completed,
                ..
            } => {
                let left = count.get().saturating_sub(*completed);
                NonZero::<u32>::new(left).map(StressRemaining::Count)
            }
            StressProgress::Count {
                total: StressCount::Infinite,
                ..
            } => Some(StressRemaining::Infinite),
            StressProgress::Time { total, elapsed, .. } => {
                let left = total.saturating_sub(*elapsed);
                NonZeroDuration::new(left).map(StressRemaining::Time)
            }
        }
    }

    /// Returns the id of the next sub-run: the id of the run in lower-case hyphenated form,
    /// `:@stress-`, and the number of completed sub-runs in decimal. No other sub-run, of this run or
    /// of another, has the same id.
    #[must_use]
    pub fn unique_id(&self, run_id: Uuid) -> String {
        let completed = self.completed();
        format!("{run_id}:@stress-{completed}")
    }

    /// Returns the number of completed sub-runs.
    fn completed(&self) -> u32 {
        match self {
            StressProgress::Count { completed, .. } | StressProgress::Time { completed, .. } => {
                *completed
            }
        }
    }
}
