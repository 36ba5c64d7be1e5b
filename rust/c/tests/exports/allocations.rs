//! Checks that the exports allocate nothing, as the header says.

use crate::counters::views;
use crate::displays::{NO_OUTPUT, finished_test};
use crate::outcomes::NOTHING;
use crate::stress::{NO_TIME, progress};
use deodarsieve_c::c_values::layout::{
    FfiFailedCounts, FfiFinalStats, FfiHead, FfiResult, FfiRunStats, FfiSlice, FfiStressRemaining,
};
use deodarsieve_c::exports::counters::{
    deodarsieve_run_stats_count_script, deodarsieve_run_stats_count_test,
    deodarsieve_run_stats_failed_counts, deodarsieve_run_stats_has_failures,
};
use deodarsieve_c::exports::levels::{
    deodarsieve_finished_test_compute_output, deodarsieve_result_is_success,
    deodarsieve_result_is_termination_failure, deodarsieve_test_view_final_status_level,
    deodarsieve_test_view_status_level,
};
use deodarsieve_c::exports::outcomes::{
    deodarsieve_final_stats_summarize_stress, deodarsieve_outcome_combine,
    deodarsieve_outcome_of_sub_runs, deodarsieve_run_stats_summarize,
};
use deodarsieve_c::exports::slices::{
    deodarsieve_head_find_last, deodarsieve_slice_extract, deodarsieve_slice_extract_capped,
};
use deodarsieve_c::exports::stress::deodarsieve_stress_progress_remaining;
use std::alloc::{GlobalAlloc, Layout, System};
use std::cell::Cell;

/// The system's allocator, with a count of the requests of each thread.
struct Counting;

thread_local! {
    static REQUESTS: Cell<usize> = const { Cell::new(0) };
}

// SAFETY: the system's allocator does all the work.
unsafe impl GlobalAlloc for Counting {
    unsafe fn alloc(&self, layout: Layout) -> *mut u8 {
        REQUESTS.set(REQUESTS.get() + 1);
        // SAFETY: the caller keeps the conditions of this function, which are the same.
        unsafe { System.alloc(layout) }
    }

    unsafe fn dealloc(&self, pointer: *mut u8, layout: Layout) {
        // SAFETY: the caller keeps the conditions of this function, which are the same.
        unsafe { System.dealloc(pointer, layout) }
    }
}

#[global_allocator]
static ALLOCATOR: Counting = Counting;

/// Returns how often a call asks for memory.
fn requests<R>(call: impl FnOnce() -> R) -> usize {
    let before = REQUESTS.get();
    let result = call();
    let requests = REQUESTS.get() - before;
    drop(result);
    requests
}

#[test]
fn requests_are_counted() {
    assert_eq!(requests(|| Box::new(7)), 1);
    assert_eq!(requests(|| vec![String::from("a"), String::from("b")]), 3);
}

#[test]
fn searches_allocate_nothing() {
    let note = b"note: test did not panic as expected\n".repeat(99);
    let panicked = b"thread 'main' panicked at src/lib.rs:4:5:\nboom\n".repeat(99);
    let failed = b"Error: no\nmore\n".repeat(99);
    for (out, err) in [
        (&note, &panicked),
        (&note, &failed),
        (&note, &note),
        (&failed, &note),
    ] {
        let mut slice = FfiSlice {
            kind: 77,
            start: 77,
            length: 77,
        };
        let mut head = FfiHead {
            is_found: false,
            start: 77,
            stop: 77,
            reads: 77,
        };
        let (out_at, out_length, err_at, err_length) =
            (out.as_ptr(), out.len(), err.as_ptr(), err.len());
        // SAFETY: the pointers and lengths are those of two vectors.
        let count = requests(|| unsafe {
            deodarsieve_slice_extract(
                true, out_at, out_length, true, err_at, err_length, &mut slice,
            );
            deodarsieve_slice_extract_capped(
                true, out_at, out_length, true, err_at, err_length, 9, &mut slice,
            );
            deodarsieve_head_find_last(err_at, err_length, &mut head)
        });
        assert_eq!(count, 0);
    }
}

#[test]
fn counters_and_levels_allocate_nothing() {
    for test in views() {
        let (mut stats, mut answer, mut is_true) = (FfiRunStats::default(), 77, false);
        let mut failed = FfiFailedCounts {
            tests: 77,
            setup_scripts: 77,
        };
        let mut summary = NOTHING;
        let count = requests(|| {
            deodarsieve_run_stats_count_test(&mut stats, &test);
            deodarsieve_run_stats_count_script(&mut stats, &test.result);
            deodarsieve_run_stats_failed_counts(&stats, &mut failed);
            deodarsieve_run_stats_has_failures(&stats, &mut is_true);
            deodarsieve_run_stats_summarize(&stats, &mut summary);
            deodarsieve_test_view_status_level(&test, &mut answer);
            deodarsieve_test_view_final_status_level(&test, &mut answer);
            deodarsieve_result_is_success(&test.result, &mut is_true);
            deodarsieve_result_is_termination_failure(&test.result, &mut is_true)
        });
        assert_eq!(count, 0);
    }
}

#[test]
fn outcomes_and_displays_allocate_nothing() {
    for kind in 0..4 {
        let (mut answer, mut output) = (77, NO_OUTPUT);
        let mut remaining = FfiStressRemaining {
            kind: 77,
            count: 77,
            time: NO_TIME,
        };
        let summaries = [NOTHING; 9].map(|summary| FfiFinalStats { kind, ..summary });
        let test = finished_test(kind, FfiResult { kind, number: 9 });
        let run = progress(kind, 3, 2);
        // SAFETY: the pointer and the length are those of an array.
        let count = requests(|| unsafe {
            deodarsieve_outcome_of_sub_runs(summaries.as_ptr(), summaries.len(), &mut answer);
            deodarsieve_final_stats_summarize_stress(&summaries[0], 0, &mut answer);
            deodarsieve_outcome_combine(kind, 0, &mut answer);
            deodarsieve_finished_test_compute_output(&test, &mut output);
            deodarsieve_stress_progress_remaining(&run, &mut remaining)
        });
        assert_eq!(count, 0);
    }
}
