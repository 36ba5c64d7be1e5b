// Made by tools/erase from crates/test_report_run/src/totals.rt. Do not edit.
//! The sums over all suites of a run.

use crate::notes::note::{RunEnd, SuiteNote};
use crate::run::error::{RunError, one_more};
use crate::run::said::time_sum;
use deodarsieve::RunStats;
use deodarsieve::{RunFailureStep, RunOutcome};

/// The sums over the suites that are over.
#[derive(Clone, Copy, Debug)]
pub(crate) struct Totals {
    end: RunEnd,
}

impl Totals {
    /// Returns the sums over no suites.
    pub(crate) fn new() -> Totals {
        Totals {
            end: RunEnd {
                stats: RunStats::default(),
                skipped: 0,
                not_run: 0,
                crashed: 0,
                time: None,
                outcome: RunOutcome::NoTestsRun,
            },
        }
    }

    /// Adds a suite. Fails if a sum does not fit.
    pub(crate) fn add(&mut self, suite: &SuiteNote) -> Result<(), RunError> {
        let mut stats = self.end.stats;
        stats.try_add(&suite.stats)?;
        let crashed = self.end.crashed.checked_add(suite.crashed);
        self.end = RunEnd {
            stats,
            skipped: plus(self.end.skipped, suite.skipped)?,
            not_run: plus(self.end.not_run, suite.not_run)?,
            crashed: crashed.ok_or(RunError::CounterFull)?,
            time: time_sum(self.end.time, suite.time),
            outcome: self.end.outcome.combine(outcome_of(suite)?),
        };
        Ok(())
    }

    /// Returns the sums and the outcome of the run. Of its `contradictions`, `cancels` say that the run was cancelled. The
    /// run failed if there are others, and was cancelled if there are only these and nothing failed.
    pub(crate) fn end(&self, contradictions: usize, cancels: usize) -> RunEnd {
        let step = RunFailureStep::Test;
        let outcome = if contradictions > cancels {
            RunOutcome::Failed { step }
        } else if contradictions > 0 {
            self.end.outcome.combine(RunOutcome::Cancelled { step })
        } else {
            self.end.outcome
        };
        RunEnd {
            outcome,
            ..self.end
        }
    }
}

/// Returns the outcome of a suite. It depends on whether all tests ran, and not on how many did not. Fails if
/// the number of finished tests is `usize::MAX`.
fn outcome_of(suite: &SuiteNote) -> Result<RunOutcome, RunError> {
    let finished = suite.stats.finished_count;
    let stats = RunStats {
        initial_run_count: if suite.not_run > 0 {
            one_more(finished)?
        } else {
            finished
        },
        ..suite.stats
    };
    Ok(RunOutcome::from_final_stats(stats.summarize_final()))
}

/// Adds two numbers. Fails if the sum does not fit.
fn plus(a: u128, b: u128) -> Result<u128, RunError> {
    a.checked_add(b).ok_or(RunError::CounterFull)
}
