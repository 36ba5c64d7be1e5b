// Made by tools/erase from crates/run_events_results/src/stress.rt. Do not edit.
//! Repeated runs: the numbers of their sub-runs, and durations.

use core::num::NonZero;
use core::time::Duration;

/// A duration that is not zero.
#[derive(Clone, Copy, Debug, PartialEq, Eq)]
pub struct NonZeroDuration(Duration);

impl NonZeroDuration {
    /// Returns the duration as one that is not zero, or `None` if it is zero.
    #[must_use]
    pub fn new(duration: Duration) -> Option<Self> {
        if duration.is_zero() {
            None
        } else {
            Some(NonZeroDuration(duration))
        }
    }

    /// Returns the duration.
    #[must_use]
    pub fn get(self) -> Duration {
        self.0
    }
}

/// The number of a sub-run of a repeated run, and how many there are.
///
/// Ordered by the number, then by the total. An unknown total is less than a known one.
#[derive(Clone, Copy, Debug, PartialEq, Eq, PartialOrd, Ord, Hash)]
#[cfg_attr(
    feature = "serde",
    derive(serde::Serialize, serde::Deserialize),
    serde(rename_all = "kebab-case")
)]
pub struct StressIndex {
    /// The number of the sub-run, counted from 0.
    pub current: u32,

    /// The number of sub-runs, if it is known beforehand.
    pub total: Option<NonZero<u32>>,
}

impl StressIndex {
    /// Returns the number of sub-runs, if it is known beforehand.
    #[must_use]
    pub fn total_get(&self) -> Option<u32> {
        self.total.map(|total| total.get())
    }
}
