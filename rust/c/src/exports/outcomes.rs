// Made by tools/erase from crates/deodarsieve/src/outcomes.rt. Do not edit.
//! Summaries of runs, and their outcomes.

use crate::c_values::layout::{FfiFinalStats, FfiRunStats};
use crate::c_values::outcomes::outcome_of;
use crate::c_values::status::{BAD_CODE, OK};
use crate::c_values::{codes, values};
use deodarsieve::StressIndex;
use deodarsieve::StressRunStats;

/// Writes the summary of a finished run's counters, for any values of them.
#[unsafe(no_mangle)]
pub extern "C" fn deodarsieve_run_stats_summarize(
    stats: &FfiRunStats,
    answer: &mut FfiFinalStats,
) -> u32 {
    let Some(counters) = values::run_stats(stats) else {
        return BAD_CODE;
    };
    *answer = values::written_final(counters.summarize_final());
    OK
}

/// Writes the code of a run's outcome, from the summaries of all its sub-runs: the highest of their
/// outcomes, or `NoTestsRun` if there is no sub-run.
///
/// # Safety
///
/// - `sub_runs` points to `sub_runs_length` elements that nobody writes during the call, or
///   `sub_runs_length` is 0.
/// - `answer` points to a value, and is aligned and not null.
#[unsafe(no_mangle)]
pub unsafe extern "C" fn deodarsieve_outcome_of_sub_runs(
    sub_runs: *const FfiFinalStats,
    sub_runs_length: usize,
    answer: &mut u32,
) -> u32 {
    let sub_runs = unsafe { crate::slice_of(sub_runs, sub_runs_length) };
    let Some(outcome) = outcome_of(sub_runs) else {
        return BAD_CODE;
    };
    *answer = codes::outcome_code(outcome);
    OK
}

/// Writes the code of the higher of two outcomes.
#[unsafe(no_mangle)]
pub extern "C" fn deodarsieve_outcome_combine(outcome: u32, other: u32, answer: &mut u32) -> u32 {
    let (Some(outcome), Some(other)) = (codes::outcome(outcome), codes::outcome(other)) else {
        return BAD_CODE;
    };
    *answer = codes::outcome_code(outcome.combine(other));
    OK
}

/// Writes the code of a repeated run's summary, from the number of its sub-runs that failed and the
/// summary of the last one.
#[unsafe(no_mangle)]
pub extern "C" fn deodarsieve_final_stats_summarize_stress(
    last: &FfiFinalStats,
    failed_count: u32,
    answer: &mut u32,
) -> u32 {
    let Some(last_final_stats) = values::final_stats(last) else {
        return BAD_CODE;
    };
    let stats = StressRunStats {
        completed: StressIndex {
            current: 0,
            total: None,
        },
        success_count: 0,
        failed_count,
        last_final_stats,
    };
    *answer = codes::stress_final_code(stats.summarize_final());
    OK
}
