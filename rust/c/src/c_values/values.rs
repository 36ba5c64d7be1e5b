// Made by tools/erase from crates/c_values/src/values.rt. Do not edit.
//! Conversions of structs of C to values of the layer and back.

use crate::c_values::codes;
use crate::c_values::layout::{FfiFinalStats, FfiRunStats, FfiTestView};
use deodarsieve::FinishedTest;
use deodarsieve::RunStats;
use deodarsieve::{FinalRunStats, RunStatsFailureKind};
use deodarsieve::{FinalStatusLevel, StatusLevel};

/// Returns the finished test, or `None` if a code is not in its table.
pub fn finished_test(test: &FfiTestView) -> Option<FinishedTest> {
    let flaky_result = codes::flaky_result(test.flaky_result)?;
    Some(FinishedTest {
        result: codes::described(test.result)?,
        attempts: test.attempts,
        is_slow: test.is_slow,
        flaky_result,
    })
}

/// Returns the levels of a finished test, or `None` if a code is not in its table.
pub fn levels_of(test: &FfiTestView) -> Option<(StatusLevel, FinalStatusLevel)> {
    let finished = finished_test(test)?;
    let view = finished.view();
    Some((view.status_level(), view.final_status_level()))
}

/// Returns the counters of a run, or `None` if the code of the reason is not in its table.
pub fn run_stats(stats: &FfiRunStats) -> Option<RunStats> {
    Some(RunStats {
        initial_run_count: stats.initial_run_count,
        finished_count: stats.finished_count,
        setup_scripts_initial_count: stats.setup_scripts_initial_count,
        setup_scripts_finished_count: stats.setup_scripts_finished_count,
        setup_scripts_passed: stats.setup_scripts_passed,
        setup_scripts_failed: stats.setup_scripts_failed,
        setup_scripts_exec_failed: stats.setup_scripts_exec_failed,
        setup_scripts_timed_out: stats.setup_scripts_timed_out,
        passed: stats.passed,
        passed_slow: stats.passed_slow,
        passed_timed_out: stats.passed_timed_out,
        flaky: stats.flaky,
        failed: stats.failed,
        failed_slow: stats.failed_slow,
        failed_timed_out: stats.failed_timed_out,
        leaky: stats.leaky,
        leaky_failed: stats.leaky_failed,
        exec_failed: stats.exec_failed,
        skipped: stats.skipped,
        cancel_reason: codes::reason(stats.cancel_reason)?,
    })
}

/// Returns the struct of C with the counters of a run.
pub fn written_stats(stats: RunStats) -> FfiRunStats {
    FfiRunStats {
        initial_run_count: stats.initial_run_count,
        finished_count: stats.finished_count,
        setup_scripts_initial_count: stats.setup_scripts_initial_count,
        setup_scripts_finished_count: stats.setup_scripts_finished_count,
        setup_scripts_passed: stats.setup_scripts_passed,
        setup_scripts_failed: stats.setup_scripts_failed,
        setup_scripts_exec_failed: stats.setup_scripts_exec_failed,
        setup_scripts_timed_out: stats.setup_scripts_timed_out,
        passed: stats.passed,
        passed_slow: stats.passed_slow,
        passed_timed_out: stats.passed_timed_out,
        flaky: stats.flaky,
        failed: stats.failed,
        failed_slow: stats.failed_slow,
        failed_timed_out: stats.failed_timed_out,
        leaky: stats.leaky,
        leaky_failed: stats.leaky_failed,
        exec_failed: stats.exec_failed,
        skipped: stats.skipped,
        cancel_reason: codes::reason_code(stats.cancel_reason),
    }
}

/// Returns the step of a failure or a cancellation with its numbers, or `None` if the code is not
/// in its table.
fn failure_kind(stats: &FfiFinalStats) -> Option<RunStatsFailureKind> {
    match stats.step {
        0 => Some(RunStatsFailureKind::Test {
            initial_run_count: stats.initial_run_count,
            not_run: stats.not_run,
        }),
        1 => Some(RunStatsFailureKind::SetupScript),
        _ => None,
    }
}

/// Returns the summary of a finished run, or `None` if a code is not in its table.
pub fn final_stats(stats: &FfiFinalStats) -> Option<FinalRunStats> {
    match stats.kind {
        0 => Some(FinalRunStats::NoTestsRun),
        1 => Some(FinalRunStats::Success),
        2 => Some(FinalRunStats::Cancelled {
            reason: codes::reason(stats.reason)?,
            kind: failure_kind(stats)?,
        }),
        3 => Some(FinalRunStats::Failed {
            kind: failure_kind(stats)?,
        }),
        _ => None,
    }
}

/// Returns the struct of C with the summary of a finished run.
pub fn written_final(stats: FinalRunStats) -> FfiFinalStats {
    let nothing = FfiFinalStats {
        kind: 0,
        reason: 0,
        step: 0,
        initial_run_count: 0,
        not_run: 0,
    };
    match stats {
        FinalRunStats::NoTestsRun => nothing,
        FinalRunStats::Success => FfiFinalStats { kind: 1, ..nothing },
        FinalRunStats::Cancelled { reason, kind } => FfiFinalStats {
            kind: 2,
            reason: codes::reason_code(reason),
            ..written_kind(kind)
        },
        FinalRunStats::Failed { kind } => FfiFinalStats {
            kind: 3,
            ..written_kind(kind)
        },
    }
}

/// Returns the struct of C for a step and its numbers, with 0 in the other fields.
fn written_kind(kind: RunStatsFailureKind) -> FfiFinalStats {
    match kind {
        RunStatsFailureKind::Test {
            initial_run_count,
            not_run,
        } => FfiFinalStats {
            kind: 0,
            reason: 0,
            step: 0,
            initial_run_count,
            not_run,
        },
        RunStatsFailureKind::SetupScript => FfiFinalStats {
            kind: 0,
            reason: 0,
            step: 1,
            initial_run_count: 0,
            not_run: 0,
        },
    }
}
