//! The structs and the functions of `rust/c/include/deodarsieve.h`.
//!
//! All unsafe code of the comparison is here. The structs are those of the C library, whose tests
//! compare them with the header. A function that takes references only is safe to call. A function
//! that takes a pointer and a length has a safe one next to it that takes a slice.

pub use crate::c_values::layout::{
    FfiDuration as Duration, FfiFailedCounts as FailedCounts, FfiFinalStats as FinalStats,
    FfiFinishedTest as FinishedTest, FfiHead as Head, FfiOutput as Output, FfiResult as UnitResult,
    FfiRunStats as RunStats, FfiSlice as Slice, FfiStressProgress as StressProgress,
    FfiStressRemaining as StressRemaining, FfiTestView as TestView,
};
pub use crate::c_values::status::{COUNTER_FULL, OK};

// SAFETY: the header declares these functions with these parameters. It requires that a pointer to
// a struct points to a whole struct, to which nobody else writes, and references do.
unsafe extern "C" {
    safe fn deodarsieve_layouts_1();
    fn deodarsieve_slice_extract(
        is_out_captured: bool,
        out: *const u8,
        out_length: usize,
        is_err_captured: bool,
        err: *const u8,
        err_length: usize,
        answer: &mut Slice,
    ) -> u32;
    fn deodarsieve_slice_extract_capped(
        is_out_captured: bool,
        out: *const u8,
        out_length: usize,
        is_err_captured: bool,
        err: *const u8,
        err_length: usize,
        limit: usize,
        answer: &mut Slice,
    ) -> u32;
    fn deodarsieve_head_find_last(bytes: *const u8, length: usize, answer: &mut Head) -> u32;
    fn deodarsieve_outcome_of_sub_runs(
        sub_runs: *const FinalStats,
        length: usize,
        answer: &mut u32,
    ) -> u32;
    pub safe fn deodarsieve_run_stats_count_test(stats: &mut RunStats, test: &TestView) -> u32;
    pub safe fn deodarsieve_run_stats_count_script(
        stats: &mut RunStats,
        script: &UnitResult,
    ) -> u32;
    pub safe fn deodarsieve_run_stats_failed_counts(
        stats: &RunStats,
        answer: &mut FailedCounts,
    ) -> u32;
    pub safe fn deodarsieve_run_stats_has_failures(stats: &RunStats, answer: &mut bool) -> u32;
    pub safe fn deodarsieve_run_stats_summarize(stats: &RunStats, answer: &mut FinalStats) -> u32;
    pub safe fn deodarsieve_outcome_combine(outcome: u32, other: u32, answer: &mut u32) -> u32;
    pub safe fn deodarsieve_final_stats_summarize_stress(
        last: &FinalStats,
        failed_count: u32,
        answer: &mut u32,
    ) -> u32;
    pub safe fn deodarsieve_test_view_status_level(test: &TestView, answer: &mut u32) -> u32;
    pub safe fn deodarsieve_test_view_final_status_level(test: &TestView, answer: &mut u32) -> u32;
    pub safe fn deodarsieve_finished_test_compute_output(
        test: &FinishedTest,
        answer: &mut Output,
    ) -> u32;
    pub safe fn deodarsieve_result_is_success(result: &UnitResult, answer: &mut bool) -> u32;
    pub safe fn deodarsieve_result_is_termination_failure(
        result: &UnitResult,
        answer: &mut bool,
    ) -> u32;
    pub safe fn deodarsieve_stress_progress_remaining(
        progress: &StressProgress,
        answer: &mut StressRemaining,
    ) -> u32;
}

/// A library with other structs or functions does not have this name, so a program with these ones
/// does not link with it.
#[used]
static LAYOUTS: extern "C" fn() = deodarsieve_layouts_1;

/// Calls an export that writes its result through a pointer, and returns that result, or the status
/// if it is not [`OK`].
pub fn written<T: Default>(call: impl FnOnce(&mut T) -> u32) -> Result<T, u32> {
    let mut answer = T::default();
    match call(&mut answer) {
        OK => Ok(answer),
        status => Err(status),
    }
}

/// Calls `deodarsieve_slice_extract`. A stream that was not captured is `None`.
pub fn extract(out: Option<&[u8]>, err: Option<&[u8]>, answer: &mut Slice) -> u32 {
    let (out_bytes, err_bytes) = (out.unwrap_or_default(), err.unwrap_or_default());
    // SAFETY: each pointer and its length are those of one slice.
    unsafe {
        deodarsieve_slice_extract(
            out.is_some(),
            out_bytes.as_ptr(),
            out_bytes.len(),
            err.is_some(),
            err_bytes.as_ptr(),
            err_bytes.len(),
            answer,
        )
    }
}

/// Calls `deodarsieve_slice_extract_capped`. A stream that was not captured is `None`.
pub fn extract_capped(
    out: Option<&[u8]>,
    err: Option<&[u8]>,
    limit: usize,
    answer: &mut Slice,
) -> u32 {
    let (out_bytes, err_bytes) = (out.unwrap_or_default(), err.unwrap_or_default());
    // SAFETY: each pointer and its length are those of one slice.
    unsafe {
        deodarsieve_slice_extract_capped(
            out.is_some(),
            out_bytes.as_ptr(),
            out_bytes.len(),
            err.is_some(),
            err_bytes.as_ptr(),
            err_bytes.len(),
            limit,
            answer,
        )
    }
}

/// Calls `deodarsieve_head_find_last`.
pub fn last_head(bytes: &[u8], answer: &mut Head) -> u32 {
    // SAFETY: the pointer and the length are those of one slice.
    unsafe { deodarsieve_head_find_last(bytes.as_ptr(), bytes.len(), answer) }
}

/// Calls `deodarsieve_outcome_of_sub_runs`.
pub fn outcome_of_sub_runs(sub_runs: &[FinalStats], answer: &mut u32) -> u32 {
    // SAFETY: the pointer and the length are those of one slice.
    unsafe { deodarsieve_outcome_of_sub_runs(sub_runs.as_ptr(), sub_runs.len(), answer) }
}
