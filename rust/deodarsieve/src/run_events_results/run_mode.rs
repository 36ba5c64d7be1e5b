// Made by tools/erase from crates/run_events_results/src/run_mode.rt. Do not edit.
//! The mode of a run: tests or benchmarks.

use core::fmt;

/// The mode of a run, displayed as `test` or `benchmark`.
#[derive(Clone, Copy, Debug, Default, PartialEq, Eq)]
#[cfg_attr(
    feature = "serde",
    derive(serde::Serialize, serde::Deserialize),
    serde(rename_all = "kebab-case")
)]
pub enum NextestRunMode {
    /// The run runs tests.
    #[default]
    Test,

    /// The run runs benchmarks.
    Benchmark,
}

impl NextestRunMode {
    /// Returns true if the run runs benchmarks.
    #[must_use]
    pub fn is_benchmark(self) -> bool {
        matches!(self, NextestRunMode::Benchmark)
    }
}

impl fmt::Display for NextestRunMode {
    fn fmt(&self, f: &mut fmt::Formatter<'_>) -> fmt::Result {
        match self {
            NextestRunMode::Test => f.write_str("test"),
            NextestRunMode::Benchmark => f.write_str("benchmark"),
        }
    }
}
