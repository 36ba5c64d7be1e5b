// Made by tools/erase from crates/deodarsieve/src/stress.rt. Do not edit.
//! What remains of a repeated run.

use crate::c_values::layout::{FfiStressProgress, FfiStressRemaining};
use crate::c_values::status::{BAD_CODE, OK};
use crate::c_values::stress::{progress_of, written_left};

/// Writes what remains of a repeated run. Returns `BAD_CODE` for a count of 0, and for a duration
/// with 1,000,000,000 nanoseconds or more.
#[unsafe(no_mangle)]
pub extern "C" fn deodarsieve_stress_progress_remaining(
    progress: &FfiStressProgress,
    answer: &mut FfiStressRemaining,
) -> u32 {
    let Some(progress) = progress_of(progress) else {
        return BAD_CODE;
    };
    *answer = written_left(progress.remaining());
    OK
}
