//! Compares the exports with the layer for all codes of results, settings and reasons.

use crate::tables::{
    FINAL_LEVELS, FLAKY_RESULTS, LEVELS, REASONS, code_of, expect_codes, results, variant_of,
};
use deodarsieve::{RunStats, TestView};
use deodarsieve_c::c_values::layout::{FfiResult, FfiRunStats, FfiTestView};
use deodarsieve_c::c_values::status::OK;
use deodarsieve_c::exports::counters::{
    deodarsieve_run_stats_count_script, deodarsieve_run_stats_count_test,
};
use deodarsieve_c::exports::levels::{
    deodarsieve_result_is_success, deodarsieve_result_is_termination_failure,
    deodarsieve_test_view_final_status_level, deodarsieve_test_view_status_level,
};
use std::fmt::Debug;

/// Returns the names and the values of the counters of a struct of C or of the layer.
fn counters(stats: &impl Debug) -> String {
    let text = format!("{stats:?}");
    let (_, fields) = text.split_once(" { ").expect("a struct has fields");
    let (counters, _) = fields.split_once(", cancel_reason").expect("a reason");
    counters.to_owned()
}

const VIEW: FfiTestView = FfiTestView {
    result: FfiResult { kind: 0, number: 0 },
    attempts: 1,
    is_slow: false,
    flaky_result: 0,
};

/// Returns all finished tests of up to 2 attempts.
pub fn views() -> impl Iterator<Item = FfiTestView> {
    (0..10 * 3 * 2 * 2).map(|case| FfiTestView {
        result: FfiResult {
            kind: case % 10,
            number: 9,
        },
        attempts: (case / 10 % 3) as usize,
        is_slow: case / 30 % 2 == 1,
        flaky_result: case / 60,
    })
}

/// Calls the layer with the view of a finished test.
pub fn with_view<R>(test: &FfiTestView, call: impl Fn(&TestView<'_>) -> R) -> R {
    let (_, result) = &results(test.result.number)[test.result.kind as usize];
    let view = TestView::new(result)
        .with_attempts(test.attempts)
        .with_slow(test.is_slow)
        .with_flaky_result(variant_of(&FLAKY_RESULTS, test.flaky_result));
    call(&view)
}

#[test]
fn tests_are_counted_as_in_the_layer() {
    for test in views() {
        let mut stats = FfiRunStats::default();
        let expected = with_view(&test, |view| {
            let mut expected = RunStats::default();
            expected.try_on_test_view(view).expect("no counter is full");
            expected
        });
        assert_eq!(deodarsieve_run_stats_count_test(&mut stats, &test), OK);
        assert_eq!(counters(&stats), counters(&expected));
    }
}

#[test]
fn scripts_are_counted_as_in_the_layer() {
    for (kind, (name, result)) in (0..).zip(results(9)) {
        let mut stats = FfiRunStats::default();
        let mut expected = RunStats::default();
        expected
            .try_on_script_result(&result)
            .expect("no counter is full");
        let script = FfiResult { kind, number: 9 };
        assert_eq!(deodarsieve_run_stats_count_script(&mut stats, &script), OK);
        assert_eq!(counters(&stats), counters(&expected), "{name}");
    }
}

#[test]
fn levels_are_those_of_the_layer() {
    for test in views() {
        let (mut level, mut final_level) = (77, 77);
        assert_eq!(deodarsieve_test_view_status_level(&test, &mut level), OK);
        assert_eq!(
            deodarsieve_test_view_final_status_level(&test, &mut final_level),
            OK
        );
        assert_eq!(
            level,
            with_view(&test, |view| code_of(&LEVELS, &view.status_level()))
        );
        let expected = with_view(&test, |view| {
            code_of(&FINAL_LEVELS, &view.final_status_level())
        });
        assert_eq!(final_level, expected);
    }
}

#[test]
fn results_are_those_of_the_layer() {
    for number in [0, 9, 15, -1, i32::MIN, i32::MAX] {
        for (kind, (name, result)) in (0..).zip(results(number)) {
            let (mut is_success, mut is_termination) = (false, false);
            let ended = FfiResult { kind, number };
            assert_eq!(deodarsieve_result_is_success(&ended, &mut is_success), OK);
            assert_eq!(
                deodarsieve_result_is_termination_failure(&ended, &mut is_termination),
                OK
            );
            assert_eq!(is_success, result.is_success(), "{name}");
            assert_eq!(
                is_termination,
                result.is_termination_failure(),
                "{name} {number}"
            );
        }
    }
}

#[test]
fn reasons_are_read_and_written() {
    for (code, (name, _)) in (0..).zip(REASONS.iter()) {
        let mut stats = FfiRunStats {
            cancel_reason: code,
            ..FfiRunStats::default()
        };
        assert_eq!(deodarsieve_run_stats_count_test(&mut stats, &VIEW), OK);
        assert_eq!(stats.cancel_reason, code, "{name}");
    }
    expect_codes(&REASONS, |cancel_reason| {
        let mut stats = FfiRunStats {
            cancel_reason,
            ..FfiRunStats::default()
        };
        deodarsieve_run_stats_count_test(&mut stats, &VIEW)
    });
}

#[test]
fn codes_past_the_end_are_refused() {
    expect_codes(&FLAKY_RESULTS, |flaky_result| {
        let test = FfiTestView {
            flaky_result,
            ..VIEW
        };
        deodarsieve_run_stats_count_test(&mut FfiRunStats::default(), &test)
    });
    expect_codes(&results(0), |kind| {
        let script = FfiResult { kind, number: 0 };
        deodarsieve_run_stats_count_script(&mut FfiRunStats::default(), &script)
    });
}
