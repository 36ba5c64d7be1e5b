// Made by tools/erase from crates/run_events_stats/src/stats.rt. Do not edit.
//! The counters of a run.

use crate::run_events_attempts::attempts::{ExecutionStatuses, SetupScriptExecuteStatus};
use crate::run_events_attempts::child::LiveSpec;
use crate::run_events_results::results::CancelReason;
use core::fmt;

mod run;
mod sum;
mod summary;
mod update;

/// The counters of a run: how many setup scripts and tests were to run, how many finished, and with
/// what results.
///
/// A finished test is counted by its last attempt, the number of its attempts and its setting for
/// flaky tests. A setup script is counted by its result.
#[derive(Clone, Copy, Debug, Default, PartialEq, Eq)]
#[cfg_attr(
    feature = "serde",
    derive(serde::Serialize, serde::Deserialize),
    serde(rename_all = "kebab-case")
)]
pub struct RunStats {
    /// The tests that were to run when the run began. It is greater than `finished_count` if the run
    /// ended early.
    pub initial_run_count: usize,

    /// The tests that finished.
    pub finished_count: usize,

    /// The setup scripts that were to run when the run began. It can be greater than
    /// `setup_scripts_finished_count` if the run ended early.
    pub setup_scripts_initial_count: usize,

    /// The setup scripts that finished.
    pub setup_scripts_finished_count: usize,

    /// The setup scripts that passed, or that leaked if that counts as passed.
    pub setup_scripts_passed: usize,

    /// The setup scripts that failed, or that leaked if that counts as failed.
    pub setup_scripts_failed: usize,

    /// The setup scripts that could not be executed.
    pub setup_scripts_exec_failed: usize,

    /// The setup scripts that ran out of time, even if that counts as passed.
    pub setup_scripts_timed_out: usize,

    /// The tests that passed. A flaky test that counts as failed is not one of them.
    pub passed: usize,

    /// The slow tests among `passed`, except those that ran out of time.
    pub passed_slow: usize,

    /// The tests among `passed` that ran out of time.
    pub passed_timed_out: usize,

    /// The tests among `passed` that succeeded after a retry.
    pub flaky: usize,

    /// The tests that failed, that leaked if that counts as failed, or that are flaky and count as
    /// failed.
    pub failed: usize,

    /// The slow tests among `failed`.
    pub failed_slow: usize,

    /// The tests that failed because they ran out of time. They are not among `failed`.
    pub failed_timed_out: usize,

    /// The tests whose last result is a leak that counts as passed. A flaky one that counts as failed
    /// is among `failed`, and the others are among `passed`.
    pub leaky: usize,

    /// The tests among `failed` whose last result is a leak that counts as failed. A failure that also
    /// left a handle open (`Fail` with `leaked`) is not among them.
    pub leaky_failed: usize,

    /// The tests that could not be executed. They are not among `failed`.
    pub exec_failed: usize,

    /// The tests that were skipped. Counting a unit does not change it.
    pub skipped: usize,

    /// Why the run was cancelled, if it was. Counting a unit does not change it.
    pub cancel_reason: Option<CancelReason>,
}

/// Nothing was counted, because a counter would not fit `usize`.
#[derive(Clone, Copy, Debug, PartialEq, Eq)]
pub struct CounterFull;

/// Writes `a counter is full`.
impl fmt::Display for CounterFull {
    fn fmt(&self, f: &mut fmt::Formatter<'_>) -> fmt::Result {
        f.write_str("a counter is full")
    }
}

/// The facts of a run apart from its finished units.
#[derive(Clone, Copy, Debug, PartialEq, Eq)]
pub struct RunStart {
    /// The number of tests that were to run.
    pub initial_run_count: usize,

    /// The number of setup scripts that were to run.
    pub setup_scripts_initial_count: usize,

    /// The number of tests that were skipped.
    pub skipped: usize,

    /// Why the run was cancelled, if it was.
    pub cancel_reason: Option<CancelReason>,
}

/// A borrowed finished unit of a run.
#[derive(Clone, Copy, Debug)]
pub enum FinishedUnit<'a> {
    /// A setup script.
    Script(&'a SetupScriptExecuteStatus<LiveSpec>),

    /// A test, with all its attempts.
    Test(&'a ExecutionStatuses<LiveSpec>),
}

/// A finished run, or a finished sub-run of a repeated run: its borrowed finished units and its start.
#[derive(Clone, Copy, Debug)]
pub struct FinishedRun<'a> {
    /// The finished units, in any order.
    pub units: &'a [FinishedUnit<'a>],

    /// The facts of the run apart from its finished units.
    pub start: RunStart,
}
