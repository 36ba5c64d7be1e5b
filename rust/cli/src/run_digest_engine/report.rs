// Made by tools/erase from crates/run_digest_engine/src/report.rt. Do not edit.
//! The text of reports of runs.

use crate::run_digest_engine::words::reason_text;
use deodarsieve::RunStats;
use deodarsieve::{FinalRunStats, RunFailureStep, RunOutcome, RunStatsFailureKind};
use std::fmt;

/// The step of a run, displayed in words.
#[derive(Clone, Copy)]
struct StepText(RunStatsFailureKind);

impl fmt::Display for StepText {
    fn fmt(&self, f: &mut fmt::Formatter<'_>) -> fmt::Result {
        match self.0 {
            RunStatsFailureKind::SetupScript => f.write_str("setup-script"),
            RunStatsFailureKind::Test {
                initial_run_count,
                not_run,
            } => write!(f, "test {initial_run_count} {not_run}"),
        }
    }
}

/// A summary, displayed in words.
#[derive(Clone, Copy)]
struct SummaryText(FinalRunStats);

impl fmt::Display for SummaryText {
    fn fmt(&self, f: &mut fmt::Formatter<'_>) -> fmt::Result {
        match self.0 {
            FinalRunStats::Success => f.write_str("success"),
            FinalRunStats::NoTestsRun => f.write_str("no-tests-run"),
            FinalRunStats::Cancelled { reason, kind } => {
                let word = reason_text(reason);
                let step = StepText(kind);
                write!(f, "cancelled {word} {step}")
            }
            FinalRunStats::Failed { kind } => {
                let step = StepText(kind);
                write!(f, "failed {step}")
            }
        }
    }
}

/// Returns the words for an outcome.
fn outcome_text(outcome: RunOutcome) -> &'static str {
    match outcome {
        RunOutcome::Success => "success",
        RunOutcome::NoTestsRun => "no-tests-run",
        RunOutcome::Cancelled {
            step: RunFailureStep::SetupScript,
        } => "cancelled setup-script",
        RunOutcome::Cancelled {
            step: RunFailureStep::Test,
        } => "cancelled test",
        RunOutcome::Failed {
            step: RunFailureStep::SetupScript,
        } => "failed setup-script",
        RunOutcome::Failed {
            step: RunFailureStep::Test,
        } => "failed test",
    }
}

/// Appends the three lines of a report. Both sums of failures must fit `usize`, and `summary` must be
/// the summary of the statistics.
fn push_report(text: &mut String, stats: &RunStats, summary: FinalRunStats) {
    let (finished, passed, flaky) = (stats.finished_count, stats.passed, stats.flaky);
    let failed = stats.failed_count();
    text.push_str(&format!(
        "tests {finished} passed {passed} failed {failed} flaky {flaky}\n"
    ));
    let finished = stats.setup_scripts_finished_count;
    let failed = stats.failed_setup_script_count();
    text.push_str(&format!("scripts {finished} failed {failed}\n"));
    let summary = SummaryText(summary);
    text.push_str(&format!("summary {summary}\n"));
}

/// Returns the reports of runs, and their summaries.
pub(crate) fn report_texts(runs: &[RunStats]) -> (String, Vec<FinalRunStats>) {
    let mut text = String::new();
    let mut summaries = Vec::with_capacity(runs.len());
    for stats in runs {
        let summary = stats.summarize_final();
        push_report(&mut text, stats, summary);
        summaries.push(summary);
    }
    (text, summaries)
}

/// Appends the line of the outcome of runs to their reports, unless there is exactly one run.
pub(crate) fn push_outcome(text: &mut String, runs: &[RunStats], outcome: RunOutcome) {
    if runs.len() != 1 {
        let words = outcome_text(outcome);
        text.push_str(&format!("outcome {words}\n"));
    }
}

/// Returns the reports of runs with the line of their outcome, unless there is exactly one run, and
/// their outcome. Both sums of failures of each run must fit `usize`.
pub(crate) fn reports(runs: &[RunStats]) -> (String, RunOutcome) {
    let (mut text, summaries) = report_texts(runs);
    let outcome = RunOutcome::of_sub_runs(summaries.as_slice());
    push_outcome(&mut text, runs, outcome);
    (text, outcome)
}
