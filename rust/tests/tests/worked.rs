//! Worked values that no row of the replay has: counters above 0, sums that do not fit, failures of
//! every kind, and capped slices.

use deodarsieve::{
    AbortDescription, CancelReason, ExecuteStatus, ExecutionDescription,
    ExecutionResultDescription, FailureDescription, FinalStatusLevel, FlakyResult,
    LeakTimeoutResult, LiveSpec, RunStats, StatusLevel, TestOutputErrorSlice, TestView,
};
use deodarsieve_tests::fixtures::{EXIT_ONE, LEAK_PASS, PASS, TIMEOUT_PASS, finished_test};
use deodarsieve_tests::named::counters_by;
use std::num::NonZero;

/// Returns counters that all differ, by more than 1.
fn counters() -> RunStats {
    let mut value = 0;
    let stats = counters_by(|_| {
        value += 10;
        value
    });
    RunStats {
        cancel_reason: Some(CancelReason::OutputLimit),
        ..stats
    }
}

#[test]
fn other_counters_do_not_change() {
    let mut stats = counters();
    let leak = ExecutionResultDescription::Leak {
        result: LeakTimeoutResult::Pass,
    };
    stats.on_test_view(&TestView::new(&leak).with_attempts(2).with_slow(true));
    let mut after_test = counters();
    after_test.finished_count += 1;
    after_test.passed += 1;
    after_test.passed_slow += 1;
    after_test.flaky += 1;
    after_test.leaky += 1;
    assert_eq!(stats, after_test);
    stats.on_script_result(&leak);
    let mut after_script = after_test;
    after_script.setup_scripts_finished_count += 1;
    after_script.setup_scripts_passed += 1;
    assert_eq!(stats, after_script);
}

#[test]
fn each_failure_counter_can_make_a_sum_too_large() {
    let stats = counters();
    assert!(stats.failed_counts_fit());
    assert_eq!(
        stats.failed_count(),
        stats.failed + stats.exec_failed + stats.failed_timed_out
    );
    assert_eq!(
        stats.failed_setup_script_count(),
        stats.setup_scripts_failed
            + stats.setup_scripts_exec_failed
            + stats.setup_scripts_timed_out
    );
    let fill: [fn(&mut RunStats); 6] = [
        |stats| stats.failed = usize::MAX,
        |stats| stats.exec_failed = usize::MAX,
        |stats| stats.failed_timed_out = usize::MAX,
        |stats| stats.setup_scripts_failed = usize::MAX,
        |stats| stats.setup_scripts_exec_failed = usize::MAX,
        |stats| stats.setup_scripts_timed_out = usize::MAX,
    ];
    for fill in fill {
        let mut stats = counters();
        fill(&mut stats);
        assert!(!stats.failed_counts_fit(), "{stats:?}");
    }
}

/// Returns the views of a test with this result: after one attempt and after two, slow or not, with
/// each setting for flaky tests.
fn views(result: &ExecutionResultDescription) -> Vec<TestView<'_>> {
    let view = |choice: usize| {
        TestView::new(result)
            .with_attempts(1 + choice % 2)
            .with_slow(choice & 2 != 0)
            .with_flaky_result(if choice & 4 != 0 {
                FlakyResult::Fail
            } else {
                FlakyResult::Pass
            })
    };
    (0..8).map(view).collect()
}

/// Returns the counters of a run of one test.
fn counted(test: &TestView<'_>) -> RunStats {
    let mut stats = RunStats::default();
    stats.on_test_view(test);
    stats
}

#[test]
fn every_failure_counts_as_an_exit_code_does() {
    let fail = |failure, leaked| ExecutionResultDescription::Fail { failure, leaked };
    let abort = |abort| fail(FailureDescription::Abort { abort }, true);
    let exit = fail(FailureDescription::ExitCode { code: 1 }, false);
    let aborts = [
        abort(AbortDescription::UnixSignal {
            signal: 15,
            name: None,
        }),
        abort(AbortDescription::WindowsNtStatus {
            code: -1,
            message: None,
        }),
        abort(AbortDescription::WindowsJobObject),
    ];
    for (result, is_termination) in aborts.iter().zip([true, false, true]) {
        assert_eq!(result.is_termination_failure(), is_termination);
        assert!(
            views(result)
                .iter()
                .map(counted)
                .eq(views(&exit).iter().map(counted))
        );
        for view in views(result) {
            assert_eq!(view.status_level(), StatusLevel::Fail);
            assert_eq!(view.final_status_level(), FinalStatusLevel::Fail);
        }
    }
}

#[test]
fn no_attempt_counts_as_one() {
    let result = ExecutionResultDescription::Pass;
    let (none, one) = (
        TestView::new(&result).with_attempts(0),
        TestView::new(&result),
    );
    assert_eq!(counted(&none), counted(&one));
    assert_eq!(none.status_level(), StatusLevel::Pass);
    assert_eq!(none.final_status_level(), FinalStatusLevel::Pass);
}

#[test]
fn a_capped_slice_is_the_front_of_the_whole_one() {
    let stderr = Some(&b"log\nthread 'a' panicked at x\nwhy\n\n"[..]);
    let part = |found: Option<TestOutputErrorSlice<'static>>| {
        let part = found.and_then(|found| found.stderr_subslice());
        part.expect("a part of standard error")
    };
    let whole = part(TestOutputErrorSlice::heuristic_extract(None, stderr));
    assert_eq!(whole.slice, b"thread 'a' panicked at x\nwhy");
    for limit in (1..40).filter_map(NonZero::new) {
        let cut = part(TestOutputErrorSlice::heuristic_extract_capped(
            None, stderr, limit,
        ));
        let length = limit.get().min(whole.slice.len());
        assert_eq!((cut.start, cut.slice), (4, &whole.slice[..length]));
    }
}

#[test]
fn a_success_at_the_first_attempt_is_slow_at_the_end_if_it_was_slow() {
    let levels = [
        (PASS, FinalStatusLevel::Pass),
        (LEAK_PASS, FinalStatusLevel::Leak),
        (TIMEOUT_PASS, FinalStatusLevel::Slow),
    ];
    for (result, level) in levels {
        for (is_slow, wanted) in [(false, level), (true, FinalStatusLevel::Slow)] {
            let test = finished_test(&[], result, is_slow, FlakyResult::Pass);
            assert_eq!(test.view().final_status_level(), wanted, "{result:?}");
            assert_eq!(test.describe().final_status_level(), wanted, "{result:?}");
        }
    }
}

/// Returns the numbers of the attempts in a description. The last one comes twice if it also has a
/// field of its own.
fn numbers_in(description: ExecutionDescription<'_, LiveSpec>) -> Vec<u32> {
    let numbers = |statuses: &[ExecuteStatus<LiveSpec>]| -> Vec<u32> {
        statuses
            .iter()
            .map(|status| status.retry_data.attempt)
            .collect()
    };
    let number = |status: &ExecuteStatus<LiveSpec>| vec![status.retry_data.attempt];
    match description {
        ExecutionDescription::Success { single_status } => number(single_status),
        ExecutionDescription::Flaky {
            last_status,
            prior_statuses,
            ..
        } => [numbers(prior_statuses), number(last_status)].concat(),
        ExecutionDescription::Failure {
            first_status,
            last_status,
            retries,
        } => [number(first_status), numbers(retries), number(last_status)].concat(),
    }
}

#[test]
fn a_description_has_all_attempts_in_order() {
    for count in 1..=4 {
        let earlier = vec![EXIT_ONE; count as usize - 1];
        let mut all: Vec<u32> = (1..=count).collect();
        let passed = finished_test(&earlier, PASS, false, FlakyResult::Pass);
        assert_eq!(numbers_in(passed.describe()), all);
        let failed = finished_test(&earlier, EXIT_ONE, false, FlakyResult::Pass);
        all.push(count);
        assert_eq!(numbers_in(failed.describe()), all);
    }
}

/// Returns the offset of the part of this output that explains a failure.
fn start_of(stdout: &[u8], stderr: &[u8]) -> Option<usize> {
    let found = TestOutputErrorSlice::heuristic_extract(Some(stdout), Some(stderr))?;
    found.combined_subslice().map(|part| part.start)
}

#[test]
fn a_marker_is_found_at_every_place_near_the_edge_of_a_block() {
    /// The starts of blocks, counted from the end: 131,072 bytes for an error and a note, and the
    /// others for a panic.
    const EDGES: [usize; 4] = [48, 98_304, 131_072, 196_608];
    for after in EDGES.into_iter().flat_map(|edge| edge - 40..edge + 2) {
        let rest = vec![b'x'; after];
        let output = |marker: &str| [b"log\n", marker.as_bytes(), &rest].concat();
        let panic = output("thread 'a' panicked at ");
        let error = output("Error: ");
        let note = output("note: test did not panic as expected");
        assert_eq!(start_of(b"", &panic), Some(4), "{after} bytes after it");
        assert_eq!(start_of(b"", &error), Some(4), "{after} bytes after it");
        assert_eq!(start_of(&note, b""), Some(4), "{after} bytes after it");
    }
}
