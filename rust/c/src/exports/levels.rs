// Made by tools/erase from crates/deodarsieve/src/levels.rt. Do not edit.
//! The levels of finished tests, and what a reporter shows of them.

use crate::c_values::layout::{FfiFinishedTest, FfiOutput, FfiResult, FfiTestView};
use crate::c_values::levels::{output_of, written_output};
use crate::c_values::status::{BAD_CODE, OK};
use crate::c_values::{codes, values};

/// Writes the code of a finished test's status level.
#[unsafe(no_mangle)]
pub extern "C" fn deodarsieve_test_view_status_level(test: &FfiTestView, answer: &mut u32) -> u32 {
    let Some((level, _)) = values::levels_of(test) else {
        return BAD_CODE;
    };
    *answer = codes::level_code(level);
    OK
}

/// Writes the code of a finished test's final status level.
#[unsafe(no_mangle)]
pub extern "C" fn deodarsieve_test_view_final_status_level(
    test: &FfiTestView,
    answer: &mut u32,
) -> u32 {
    let Some((_, level)) = values::levels_of(test) else {
        return BAD_CODE;
    };
    *answer = codes::final_level_code(level);
    OK
}

/// Writes what a reporter displays of a test that has just finished, and what it stores.
#[unsafe(no_mangle)]
pub extern "C" fn deodarsieve_finished_test_compute_output(
    test: &FfiFinishedTest,
    answer: &mut FfiOutput,
) -> u32 {
    let Some(output) = output_of(test) else {
        return BAD_CODE;
    };
    *answer = written_output(output);
    OK
}

/// Writes whether an attempt succeeded.
#[unsafe(no_mangle)]
pub extern "C" fn deodarsieve_result_is_success(ended: &FfiResult, answer: &mut bool) -> u32 {
    let Some(described) = codes::described(*ended) else {
        return BAD_CODE;
    };
    *answer = described.is_success();
    OK
}

/// Writes whether an attempt failed by `SIGTERM` or by the end of its job object.
#[unsafe(no_mangle)]
pub extern "C" fn deodarsieve_result_is_termination_failure(
    ended: &FfiResult,
    answer: &mut bool,
) -> u32 {
    let Some(described) = codes::described(*ended) else {
        return BAD_CODE;
    };
    *answer = described.is_termination_failure();
    OK
}
