// Made by tools/erase from crates/deodarsieve/src/counters.rt. Do not edit.
//! The counters of a run.

use crate::c_values::layout::{FfiFailedCounts, FfiResult, FfiRunStats, FfiTestView};
use crate::c_values::status::{BAD_CODE, COUNTER_FULL, OK};
use crate::c_values::{codes, values};

/// Counts a finished test: raises `finished_count` and each other counter whose rule holds for it
/// by 1.
#[unsafe(no_mangle)]
pub extern "C" fn deodarsieve_run_stats_count_test(
    stats: &mut FfiRunStats,
    test: &FfiTestView,
) -> u32 {
    let Some(mut counters) = values::run_stats(stats) else {
        return BAD_CODE;
    };
    let Some(finished) = values::finished_test(test) else {
        return BAD_CODE;
    };
    if counters.try_on_test_view(&finished.view()).is_err() {
        return COUNTER_FULL;
    }
    *stats = values::written_stats(counters);
    OK
}

/// Counts a finished setup script by its result: raises `setup_scripts_finished_count` and each
/// other counter whose rule holds for it by 1.
#[unsafe(no_mangle)]
pub extern "C" fn deodarsieve_run_stats_count_script(
    stats: &mut FfiRunStats,
    script: &FfiResult,
) -> u32 {
    let Some(mut counters) = values::run_stats(stats) else {
        return BAD_CODE;
    };
    let Some(ended) = codes::described(*script) else {
        return BAD_CODE;
    };
    if counters.try_on_script_result(&ended).is_err() {
        return COUNTER_FULL;
    }
    *stats = values::written_stats(counters);
    OK
}

/// Writes the number of tests and the number of setup scripts that did not pass.
#[unsafe(no_mangle)]
pub extern "C" fn deodarsieve_run_stats_failed_counts(
    stats: &FfiRunStats,
    answer: &mut FfiFailedCounts,
) -> u32 {
    let Some(counters) = values::run_stats(stats) else {
        return BAD_CODE;
    };
    if !counters.failed_counts_fit() {
        return COUNTER_FULL;
    }
    *answer = FfiFailedCounts {
        tests: counters.failed_count(),
        setup_scripts: counters.failed_setup_script_count(),
    };
    OK
}

/// Writes whether any test or setup script did not pass, for any values of the counters.
#[unsafe(no_mangle)]
pub extern "C" fn deodarsieve_run_stats_has_failures(
    stats: &FfiRunStats,
    answer: &mut bool,
) -> u32 {
    let Some(counters) = values::run_stats(stats) else {
        return BAD_CODE;
    };
    *answer = counters.has_failures();
    OK
}
