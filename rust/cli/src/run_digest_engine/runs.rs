// Made by tools/erase from crates/run_digest_engine/src/runs.rt. Do not edit.
//! The report of finished runs.

use crate::run_digest_engine::report::{push_outcome, report_texts};
use deodarsieve::RunOutcome;
use deodarsieve::{FinishedRun, RunStats};

/// Returns the statistics of a finished run.
fn stats_of_run(run: &FinishedRun<'_>) -> RunStats {
    RunStats::of_run(run.units, run.start)
}

/// Returns the statistics of finished runs.
fn stats_of_runs(runs: &[FinishedRun<'_>]) -> Vec<RunStats> {
    let mut all = Vec::with_capacity(runs.len());
    for run in runs {
        all.push(stats_of_run(run));
    }
    all
}

/// Returns the text that [`count`](crate::run_digest_engine::count::count) writes for lines that say these runs: the
/// report of each run, in order, and unless there is exactly one run, a line with their outcome.
///
/// The numbers are those of [`RunStats::of_run`], and the outcome is that of [`RunOutcome::of_runs`].
/// A run that no lines can say, such as one with skipped tests, has its report too.
pub fn report_of_runs(runs: &[FinishedRun<'_>]) -> String {
    let all = stats_of_runs(runs);
    let (mut text, _) = report_texts(all.as_slice());
    push_outcome(&mut text, all.as_slice(), RunOutcome::of_runs(runs));
    text
}
