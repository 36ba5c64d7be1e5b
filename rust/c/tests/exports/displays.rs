//! Compares the exports with the layer for all codes of a finished test's display.

use crate::tables::{
    DISPLAYS, FINAL_LEVELS, LEVELS, REASONS, STORES, code_of, expect_codes, results, variant_of,
};
use deodarsieve::{ExecutionResultDescription, OutputOnTestFinished, StatusLevels};
use deodarsieve_c::c_values::layout::{FfiFinishedTest, FfiOutput, FfiResult};
use deodarsieve_c::c_values::status::OK;
use deodarsieve_c::exports::levels::deodarsieve_finished_test_compute_output;

pub const NO_OUTPUT: FfiOutput = FfiOutput {
    write_status_line: false,
    show_immediate: false,
    store_final: 77,
};

/// A finished test whose codes are the digits of `case`.
pub fn finished_test(mut case: u32, result: FfiResult) -> FfiFinishedTest {
    let mut digit = |base| {
        let digit = case % base;
        case /= base;
        digit
    };
    FfiFinishedTest {
        status_level: digit(8),
        final_status_level: digit(8),
        display: digit(4),
        cancel_reason: digit(REASONS.len() as u32),
        test_status_level: digit(8),
        test_final_status_level: digit(8),
        result,
    }
}

/// Returns the result of the layer for a finished test.
fn output_of(test: &FfiFinishedTest, result: &ExecutionResultDescription) -> OutputOnTestFinished {
    let own = StatusLevels {
        status_level: variant_of(&LEVELS, test.status_level),
        final_status_level: variant_of(&FINAL_LEVELS, test.final_status_level),
    };
    own.compute_output_on_test_finished(
        variant_of(&DISPLAYS, test.display),
        variant_of(&REASONS, test.cancel_reason),
        variant_of(&LEVELS, test.test_status_level),
        variant_of(&FINAL_LEVELS, test.test_final_status_level),
        result,
    )
}

#[test]
fn displays_are_those_of_the_layer() {
    // A pass, an exit code, SIGTERM, another signal and a job object.
    for (kind, number) in [(0, 0), (3, 15), (4, 15), (4, 9), (6, 0)] {
        let (_, result) = &results(number)[kind as usize];
        for case in 0..8 * 8 * 4 * REASONS.len() as u32 * 8 * 8 {
            let test = finished_test(case, FfiResult { kind, number });
            let expected = output_of(&test, result);
            let mut output = NO_OUTPUT;
            assert_eq!(
                deodarsieve_finished_test_compute_output(&test, &mut output),
                OK
            );
            assert_eq!(output.write_status_line, expected.write_status_line);
            assert_eq!(output.show_immediate, expected.show_immediate);
            assert_eq!(output.store_final, code_of(&STORES, &expected.store_final));
        }
    }
}

/// Checks the codes that a field of a finished test takes.
fn expect_field<T>(table: &[T], field: fn(&mut FfiFinishedTest) -> &mut u32) {
    expect_codes(table, |code| {
        let mut test = finished_test(0, FfiResult { kind: 0, number: 0 });
        *field(&mut test) = code;
        deodarsieve_finished_test_compute_output(&test, &mut NO_OUTPUT.clone())
    });
}

#[test]
fn codes_past_the_end_are_refused() {
    expect_field(&LEVELS, |test| &mut test.status_level);
    expect_field(&FINAL_LEVELS, |test| &mut test.final_status_level);
    expect_field(&DISPLAYS, |test| &mut test.display);
    expect_field(&REASONS, |test| &mut test.cancel_reason);
    expect_field(&LEVELS, |test| &mut test.test_status_level);
    expect_field(&FINAL_LEVELS, |test| &mut test.test_final_status_level);
    expect_field(&results(0), |test| &mut test.result.kind);
}
