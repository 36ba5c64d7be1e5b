//! Words that several kinds of cases share.

use crate::fixtures::{
    EXEC_FAIL, EXIT_ONE, LEAK_FAIL, LEAK_PASS, PASS, TIMEOUT_FAIL, TIMEOUT_PASS,
};
use deodarsieve::{CancelReason, ExecutionResult, FlakyResult};

/// Returns the result that a word names.
pub fn named_result(word: &str) -> Option<ExecutionResult> {
    match word {
        "pass" => Some(PASS),
        "leak" => Some(LEAK_PASS),
        "leak-fail" => Some(LEAK_FAIL),
        "fail" => Some(EXIT_ONE),
        "exec-fail" => Some(EXEC_FAIL),
        "timeout" => Some(TIMEOUT_FAIL),
        "timeout-pass" => Some(TIMEOUT_PASS),
        _ => None,
    }
}

/// Returns the setting for flaky tests that a word names.
pub fn named_setting(word: &str) -> Option<FlakyResult> {
    match word {
        "Pass" => Some(FlakyResult::Pass),
        "Fail" => Some(FlakyResult::Fail),
        _ => None,
    }
}

/// Returns the attempts before the last one, which failed, by the number of all attempts: 1 or 2.
pub fn earlier_attempts(word: &str) -> Option<&'static [ExecutionResult]> {
    match word {
        "1" => Some(&[]),
        "2" => Some(&[EXIT_ONE]),
        _ => None,
    }
}

/// Returns the value of `true` and `false`.
pub fn named_truth(word: &str) -> Option<bool> {
    word.parse().ok()
}

/// Returns the reason to cancel that a word names, `-` for none.
pub fn named_reason(word: &str) -> Option<Option<CancelReason>> {
    let reason = match word {
        "-" => return Some(None),
        "setup-script-failure" => CancelReason::SetupScriptFailure,
        "test-failure" => CancelReason::TestFailure,
        "report-error" => CancelReason::ReportError,
        "output-limit" => CancelReason::OutputLimit,
        "global-timeout" => CancelReason::GlobalTimeout,
        "test-failure-immediate" => CancelReason::TestFailureImmediate,
        "signal" => CancelReason::Signal,
        "interrupt" => CancelReason::Interrupt,
        "second-signal" => CancelReason::SecondSignal,
        _ => return None,
    };
    Some(Some(reason))
}
