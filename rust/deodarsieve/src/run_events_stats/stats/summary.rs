// Made by tools/erase from crates/run_events_stats/src/stats/summary.rt. Do not edit.
//! The summary of the counters.

use crate::run_events_results::results::CancelReason;
use crate::run_events_stats::outcome::{FinalRunStats, RunStatsFailureKind};
use crate::run_events_stats::stats::RunStats;

impl RunStats {
    /// Returns the number of tests that did not pass: the sum of `failed`, `exec_failed` and
    /// `failed_timed_out`.
    ///
    /// The sum must fit `usize`; [`RunStats::failed_counts_fit`] tests it.
    ///
    /// # Panics
    ///
    /// Panics if the sum does not fit `usize`.
    #[track_caller]
    #[must_use]
    pub fn failed_count(&self) -> usize {
        self.failed
            .checked_add(self.exec_failed)
            .and_then(|failed| failed.checked_add(self.failed_timed_out))
            .expect("the failures do not fit `usize`: `failed_counts_fit` tests it")
    }

    /// Returns the number of setup scripts that did not pass: the sum of `setup_scripts_failed`,
    /// `setup_scripts_exec_failed` and `setup_scripts_timed_out`.
    ///
    /// The sum must fit `usize`; [`RunStats::failed_counts_fit`] tests it.
    ///
    /// # Panics
    ///
    /// Panics if the sum does not fit `usize`.
    #[track_caller]
    #[must_use]
    pub fn failed_setup_script_count(&self) -> usize {
        self.setup_scripts_failed
            .checked_add(self.setup_scripts_exec_failed)
            .and_then(|failed| failed.checked_add(self.setup_scripts_timed_out))
            .expect("the failures do not fit `usize`: `failed_counts_fit` tests it")
    }

    /// Returns true if both sums of failures fit `usize`, so that [`failed_count`] and
    /// [`failed_setup_script_count`] can be called.
    ///
    /// [`failed_count`]: RunStats::failed_count
    /// [`failed_setup_script_count`]: RunStats::failed_setup_script_count
    #[must_use]
    pub fn failed_counts_fit(&self) -> bool {
        self.failed
            .checked_add(self.exec_failed)
            .and_then(|failed| failed.checked_add(self.failed_timed_out))
            .is_some()
            && self
                .setup_scripts_failed
                .checked_add(self.setup_scripts_exec_failed)
                .and_then(|failed| failed.checked_add(self.setup_scripts_timed_out))
                .is_some()
    }

    /// Returns true if any test or setup script failed. The six failure counters are compared with 0
    /// one by one, so no sum can overflow.
    #[must_use]
    pub fn has_failures(&self) -> bool {
        self.any_script_failed() || self.any_test_failed()
    }

    /// Returns true if a setup script did not pass.
    fn any_script_failed(&self) -> bool {
        self.setup_scripts_failed > 0
            || self.setup_scripts_exec_failed > 0
            || self.setup_scripts_timed_out > 0
    }

    /// Returns true if a test did not pass.
    fn any_test_failed(&self) -> bool {
        self.failed > 0 || self.exec_failed > 0 || self.failed_timed_out > 0
    }

    /// Returns the summary of a finished run, by the first of these that holds:
    ///
    /// 1. a setup script failed: a failure at the setup scripts;
    /// 2. not all setup scripts finished: cancelled at the setup scripts;
    /// 3. a test failed: a failure at the tests;
    /// 4. not all tests finished: cancelled at the tests;
    /// 5. no test finished: `NoTestsRun`;
    /// 6. otherwise: `Success`.
    ///
    /// A failure is `Failed` if the run was not cancelled, or if it was cancelled because of a
    /// failure. With any other reason it is `Cancelled`. Every value of the counters has a summary.
    #[must_use]
    pub fn summarize_final(&self) -> FinalRunStats {
        let tests = RunStatsFailureKind::Test {
            initial_run_count: self.initial_run_count,
            not_run: self.initial_run_count.saturating_sub(self.finished_count),
        };
        if self.any_script_failed() {
            self.summarize_failure(RunStatsFailureKind::SetupScript)
        } else if self.setup_scripts_initial_count > self.setup_scripts_finished_count {
            FinalRunStats::Cancelled {
                reason: self.cancel_reason,
                kind: RunStatsFailureKind::SetupScript,
            }
        } else if self.any_test_failed() {
            self.summarize_failure(tests)
        } else if self.initial_run_count > self.finished_count {
            FinalRunStats::Cancelled {
                reason: self.cancel_reason,
                kind: tests,
            }
        } else if self.finished_count == 0 {
            FinalRunStats::NoTestsRun
        } else {
            FinalRunStats::Success
        }
    }

    /// Returns the summary of a run with a failure at this step.
    fn summarize_failure(&self, kind: RunStatsFailureKind) -> FinalRunStats {
        match self.cancel_reason {
            None
            | Some(
                CancelReason::SetupScriptFailure
                | CancelReason::TestFailure
                | CancelReason::TestFailureImmediate,
            ) => FinalRunStats::Failed { kind },
            Some(
                CancelReason::ReportError
                | CancelReason::OutputLimit
                | CancelReason::GlobalTimeout
                | CancelReason::Signal
                | CancelReason::Interrupt
                | CancelReason::SecondSignal,
            ) => FinalRunStats::Cancelled {
                reason: self.cancel_reason,
                kind,
            },
        }
    }
}
