//! The summaries of counters, and outcomes.

use crate::upstream_replay::counter::{counters_in, unit_in};
use crate::upstream_replay::unit::Unit;
use crate::upstream_replay::words::named_reason;
use deodarsieve::{
    CancelReason, FinalRunStats, RunFinishedStats, RunOutcome, RunStats, RunStatsFailureKind,
    StressIndex, StressRunStats,
};

/// Returns the summary of counters with a reason. The summary of the end of a single run must be
/// the same.
fn summary_of(reason: &str, counters: &str) -> Option<String> {
    let stats = RunStats {
        cancel_reason: named_reason(reason)?,
        ..counters_in(counters)?
    };
    let summary = stats.summarize_final();
    if RunFinishedStats::Single(stats).final_stats() != summary {
        return Some(String::from("another end"));
    }
    Some(format!("{summary:?}"))
}

/// Returns whether there are failures, and the sums of those of tests and of scripts, if both fit.
fn failures_of(counters: &str) -> Option<String> {
    let stats = counters_in(counters)?;
    let failures = stats.has_failures();
    if !stats.failed_counts_fit() {
        return Some(format!("{failures} too many"));
    }
    let (tests, scripts) = (stats.failed_count(), stats.failed_setup_script_count());
    Some(format!("{failures} {tests} {scripts}"))
}

/// Returns the number of finished units of the same kind after one more is counted, or `None` if it
/// cannot be counted.
fn finished_count(mut stats: RunStats, unit: &Unit) -> Option<usize> {
    match unit {
        Unit::Script(script) => stats.can_count_script(script).then(|| {
            stats.on_setup_script_finished(script);
            stats.setup_scripts_finished_count
        }),
        Unit::Test(test) => stats.can_count_test(test).then(|| {
            stats.on_test_finished(test);
            stats.finished_count
        }),
    }
}

/// Returns whether a unit can be counted in these counters, and how many have finished after it.
fn can_count(unit: &str, counters: &str) -> Option<String> {
    Some(
        match finished_count(counters_in(counters)?, &unit_in(unit)?) {
            None => String::from("false"),
            Some(finished) => format!("true, {finished}"),
        },
    )
}

/// Returns a summary by its words, with a reason and numbers that do not matter to an outcome.
fn summary_in(words: &str) -> Option<FinalRunStats> {
    let kind = if words.ends_with("script") {
        RunStatsFailureKind::SetupScript
    } else {
        RunStatsFailureKind::Test {
            initial_run_count: 3,
            not_run: 1,
        }
    };
    match words {
        "success" => Some(FinalRunStats::Success),
        "no tests run" => Some(FinalRunStats::NoTestsRun),
        "failed test" | "failed script" => Some(FinalRunStats::Failed { kind }),
        "cancelled test" | "cancelled script" => Some(FinalRunStats::Cancelled {
            reason: Some(CancelReason::Signal),
            kind,
        }),
        _ => None,
    }
}

/// Returns the outcome of sub-runs with these summaries.
fn outcome_of(words: &[&str]) -> Option<String> {
    let summaries: Vec<FinalRunStats> = words
        .iter()
        .map(|words| summary_in(words))
        .collect::<Option<_>>()?;
    Some(format!("{:?}", RunOutcome::of_sub_runs(&summaries)))
}

/// Returns the step at which a run failed or was cancelled.
fn step_of(words: &str) -> Option<String> {
    match summary_in(words)? {
        FinalRunStats::Failed { kind } | FinalRunStats::Cancelled { kind, .. } => {
            Some(format!("{:?}", kind.step()))
        }
        _ => None,
    }
}

/// Returns two outcomes combined.
fn combined(first: &str, second: &str) -> Option<String> {
    let first = RunOutcome::from_final_stats(summary_in(first)?);
    let second = RunOutcome::from_final_stats(summary_in(second)?);
    Some(format!("{:?}", first.combine(second)))
}

/// Returns the summary of a repeated run, from the number of its failed sub-runs and the summary of
/// the last sub-run.
fn repeated(failed_count: &str, last: &str) -> Option<String> {
    let last_final_stats = summary_in(last)?;
    let stats = StressRunStats {
        completed: StressIndex {
            current: 1,
            total: None,
        },
        success_count: 1,
        failed_count: failed_count.parse().ok()?,
        last_final_stats,
    };
    let summary = stats.summarize_final();
    if RunFinishedStats::Stress(stats).final_stats() != last_final_stats {
        return Some(String::from("another end"));
    }
    Some(format!("{summary:?}"))
}

/// Returns the result of the crates, or `None` if the question is of another group.
pub fn answer(parts: &[&str]) -> Option<String> {
    match parts {
        ["summarize_final", reason, counters] => summary_of(reason, counters),
        ["has_failures", counters] => failures_of(counters),
        ["can_count", unit, counters] => can_count(unit, counters),
        ["of_sub_runs", summaries @ ..] => outcome_of(summaries),
        ["step", summary] => step_of(summary),
        ["combine", first, second] => combined(first, second),
        ["summarize_final of a stress run", failed_count, last] => repeated(failed_count, last),
        _ => None,
    }
}
