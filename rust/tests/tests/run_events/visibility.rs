//! What is shown of a finished test.

use deodarsieve::{
    AbortDescription, CancelReason, ExecutionResultDescription, FailureDescription,
    FinalStatusLevel, OutputOnTestFinished, OutputStoreFinal, StatusLevel, StatusLevels,
    TestOutputDisplay,
};
use deodarsieve_tests::named::{displays, final_levels, reasons};

/// Returns a failure of this kind, which left no handle open.
fn failed(failure: FailureDescription) -> ExecutionResultDescription {
    ExecutionResultDescription::Fail {
        failure,
        leaked: false,
    }
}

/// Returns a failure by a signal.
fn signalled(signal: i32) -> ExecutionResultDescription {
    let abort = AbortDescription::UnixSignal { signal, name: None };
    failed(FailureDescription::Abort { abort })
}

/// Returns what is shown of a failed test with the final level `level`, if the reporter's final
/// level is `own`. Its status level is `Pass`.
fn output(
    own: FinalStatusLevel,
    display: TestOutputDisplay,
    reason: Option<CancelReason>,
    level: FinalStatusLevel,
    execution_result: &ExecutionResultDescription,
) -> OutputOnTestFinished {
    let levels = StatusLevels {
        status_level: StatusLevel::Pass,
        final_status_level: own,
    };
    levels.compute_output_on_test_finished(
        display,
        reason,
        StatusLevel::Fail,
        level,
        execution_result,
    )
}

/// Returns how much is stored.
fn amount_stored(stored: OutputStoreFinal) -> u8 {
    match stored {
        OutputStoreFinal::No => 0,
        OutputStoreFinal::Yes {
            display_output: false,
        } => 1,
        OutputStoreFinal::Yes {
            display_output: true,
        } => 2,
    }
}

/// Returns true if x shows and stores no more than y.
fn is_no_more(x: OutputOnTestFinished, y: OutputOnTestFinished) -> bool {
    (y.show_immediate || !x.show_immediate)
        && amount_stored(x.store_final) <= amount_stored(y.store_final)
}

/// Asserts that no more is shown of a failed test under the greater of two reasons, except for the one
/// exception.
fn assert_that_less_is_shown(
    own: FinalStatusLevel,
    display: TestOutputDisplay,
    execution_result: &ExecutionResultDescription,
    is_terminated: bool,
) {
    let reasons = reasons();
    for level in final_levels() {
        let is_asked_for = display != TestOutputDisplay::Never || own >= level;
        for (place, lesser) in reasons.iter().enumerate() {
            for greater in &reasons[place..] {
                let is_exception = *lesser == Some(CancelReason::TestFailureImmediate)
                    && greater > lesser
                    && *greater <= Some(CancelReason::Signal)
                    && is_terminated
                    && is_asked_for;
                let more = output(own, display, *greater, level, execution_result);
                let less = output(own, display, *lesser, level, execution_result);
                assert_eq!(
                    is_no_more(more, less),
                    !is_exception,
                    "{lesser:?} {greater:?}"
                );
                assert_eq!(more.write_status_line, less.write_status_line);
            }
        }
    }
}

#[test]
fn less_is_shown_under_a_greater_reason() {
    let exited = failed(FailureDescription::ExitCode { code: 1 });
    for own in final_levels() {
        for display in displays() {
            assert_that_less_is_shown(own, display, &signalled(15), true);
            assert_that_less_is_shown(own, display, &signalled(9), false);
            assert_that_less_is_shown(own, display, &exited, false);
        }
    }
}
