//! Each condition of a function, not met: the function panics, and the message names the function
//! that tests the condition. That function agrees that the condition is not met. Nothing was
//! changed before the panic.

use std::panic::{AssertUnwindSafe, catch_unwind};

use crate::common::{attempt, failed, not_loaded, script};
use deodarsieve::counted::{ByteSource, CountedBytes};
use deodarsieve::{
    ChildOutputDescription, EmptyStatuses, ExecutionDescription, ExecutionResultDescription,
    ExecutionStatuses, FinalStatusLevel, FlakyResult, LiveSpec, RunStats, TestView,
    UnitErrorDescription, UnitKind,
};

/// A success whose status failed.
fn with_inconsistent_success(call: impl Fn(ExecutionDescription<'_, LiveSpec>)) {
    let status = attempt(failed());
    let description = ExecutionDescription::Success {
        single_status: &status,
    };
    assert!(!description.is_consistent());
    call(description);
}

/// Counters of which one is `usize::MAX`.
fn full_of_passed() -> RunStats {
    RunStats {
        passed: usize::MAX,
        ..RunStats::default()
    }
}

/// Counters of which one of those of scripts is `usize::MAX`.
fn full_of_scripts() -> RunStats {
    RunStats {
        setup_scripts_passed: usize::MAX,
        ..RunStats::default()
    }
}

#[test]
#[should_panic(expected = "a finished test has at least one attempt: `try_from_parts` tests it")]
fn a_test_without_attempts() {
    let _ = ExecutionStatuses::<LiveSpec>::new(Vec::new(), FlakyResult::Pass);
}

#[test]
fn a_test_without_attempts_is_refused() {
    let refused = ExecutionStatuses::<LiveSpec>::try_from_parts(Vec::new(), FlakyResult::Pass);
    assert_eq!(refused, Err(EmptyStatuses));
}

#[test]
#[should_panic(expected = "`is_consistent` tests it")]
fn the_level_of_an_inconsistent_success() {
    with_inconsistent_success(|description| {
        let _ = description.status_level();
    });
}

#[test]
#[should_panic(expected = "`is_consistent` tests it")]
fn the_final_level_of_an_inconsistent_success() {
    with_inconsistent_success(|description| {
        let _ = description.final_status_level();
    });
}

#[test]
fn the_final_level_of_a_slow_success_needs_no_result() {
    let mut status = attempt(failed());
    status.is_slow = true;
    let description = ExecutionDescription::Success {
        single_status: &status,
    };
    assert!(!description.is_consistent());
    assert_eq!(description.final_status_level(), FinalStatusLevel::Slow);
}

#[test]
#[should_panic(expected = "index out of bounds")]
fn a_byte_after_the_end() {
    let mut source = CountedBytes::new(b"ab");
    let _ = source.byte(source.len());
}

#[test]
#[should_panic(expected = "output was not loaded: `is_loaded` tests it")]
fn the_length_of_output_that_was_not_loaded() {
    assert!(!ChildOutputDescription::NotLoaded.is_loaded());
    let _ = ChildOutputDescription::NotLoaded.stdout_stderr_len();
}

#[test]
#[should_panic(expected = "output was not loaded: `can_describe` tests it")]
fn the_errors_of_output_that_was_not_loaded() {
    let output = not_loaded(failed());
    assert!(!UnitErrorDescription::can_describe(UnitKind::Test, &output));
    let _ = UnitErrorDescription::new(UnitKind::Test, &output);
}

#[test]
fn the_errors_of_a_script_need_no_output() {
    let output = not_loaded(failed());
    assert!(UnitErrorDescription::can_describe(
        UnitKind::Script,
        &output
    ));
    assert!(
        UnitErrorDescription::new(UnitKind::Script, &output)
            .all_error_list()
            .is_none()
    );
}

#[test]
#[should_panic(expected = "the failures do not fit `usize`: `failed_counts_fit` tests it")]
fn a_sum_of_failed_tests_that_does_not_fit() {
    let stats = RunStats {
        failed: usize::MAX,
        exec_failed: 1,
        ..RunStats::default()
    };
    assert!(!stats.failed_counts_fit());
    let _ = stats.failed_count();
}

#[test]
#[should_panic(expected = "the failures do not fit `usize`: `failed_counts_fit` tests it")]
fn a_sum_of_failed_scripts_that_does_not_fit() {
    let stats = RunStats {
        setup_scripts_exec_failed: usize::MAX,
        setup_scripts_timed_out: 1,
        ..RunStats::default()
    };
    assert!(!stats.failed_counts_fit());
    let _ = stats.failed_setup_script_count();
}

#[test]
#[should_panic(expected = "a counter is full: `can_count_view` tests it")]
fn a_view_beyond_a_full_counter() {
    let mut stats = full_of_passed();
    let test = TestView::new(&ExecutionResultDescription::Pass);
    assert!(!stats.can_count_view(&test));
    stats.on_test_view(&test);
}

#[test]
#[should_panic(expected = "a counter is full: `can_count_test` tests it")]
fn a_test_beyond_a_full_counter() {
    let mut stats = full_of_passed();
    let statuses = vec![attempt(ExecutionResultDescription::Pass)];
    let test = ExecutionStatuses::new(statuses, FlakyResult::Pass);
    assert!(!stats.can_count_test(&test));
    stats.on_test_finished(&test);
}

#[test]
#[should_panic(expected = "a counter is full: `can_count_script_result` tests it")]
fn a_script_result_beyond_a_full_counter() {
    let mut stats = full_of_scripts();
    assert!(!stats.can_count_script_result(&ExecutionResultDescription::Pass));
    stats.on_script_result(&ExecutionResultDescription::Pass);
}

#[test]
#[should_panic(expected = "a counter is full: `can_count_script` tests it")]
fn a_script_beyond_a_full_counter() {
    let mut stats = full_of_scripts();
    let finished = script(ExecutionResultDescription::Pass);
    assert!(!stats.can_count_script(&finished));
    stats.on_setup_script_finished(&finished);
}

#[test]
fn counters_stay_as_they_were_when_one_is_full() {
    let pass = ExecutionResultDescription::Pass;
    let test = ExecutionStatuses::new(vec![attempt(pass.clone())], FlakyResult::Pass);

    let mut stats = full_of_passed();
    assert!(stats.try_on_test_view(&TestView::new(&pass)).is_err());
    assert!(stats.try_on_test_finished(&test).is_err());
    assert!(catch_unwind(AssertUnwindSafe(|| stats.on_test_finished(&test))).is_err());
    assert_eq!(stats, full_of_passed());

    let mut stats = full_of_scripts();
    assert!(stats.try_on_script_result(&pass).is_err());
    assert!(
        stats
            .try_on_setup_script_finished(&script(pass.clone()))
            .is_err()
    );
    assert!(catch_unwind(AssertUnwindSafe(|| stats.on_script_result(&pass))).is_err());
    assert_eq!(stats, full_of_scripts());
}

#[test]
fn the_calls_that_return_a_result_count_as_the_others() {
    let results = [ExecutionResultDescription::Pass, failed()];
    let (mut counted, mut tried) = (RunStats::default(), RunStats::default());
    for result in results {
        let test = ExecutionStatuses::new(vec![attempt(result.clone())], FlakyResult::Pass);
        counted.on_test_view(&test.view());
        counted.on_test_finished(&test);
        counted.on_script_result(&result);
        counted.on_setup_script_finished(&script(result.clone()));
        assert_eq!(tried.try_on_test_view(&test.view()), Ok(()));
        assert_eq!(tried.try_on_test_finished(&test), Ok(()));
        assert_eq!(tried.try_on_script_result(&result), Ok(()));
        assert_eq!(tried.try_on_setup_script_finished(&script(result)), Ok(()));
    }
    assert_eq!(tried, counted);
    assert_eq!(
        (counted.passed, counted.failed, counted.setup_scripts_failed),
        (2, 2, 2)
    );
}
