// Made by tools/erase from crates/c_values/src/outcomes.rt. Do not edit.
//! The outcome of sub-runs.

use crate::c_values::layout::FfiFinalStats;
use crate::c_values::values;
use deodarsieve::RunOutcome;

/// Returns the highest outcome of all sub-runs, or `None` if a code is not in its table.
pub fn outcome_of(sub_runs: &[FfiFinalStats]) -> Option<RunOutcome> {
    let mut highest = RunOutcome::NoTestsRun;
    for sub_run in sub_runs {
        let summary = values::final_stats(sub_run)?;
        highest = highest.combine(RunOutcome::from_final_stats(summary));
    }
    Some(highest)
}
