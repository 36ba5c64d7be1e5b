// Made by tools/erase from crates/run_digest_engine/src/words.rt. Do not edit.
//! The words of an input.

use crate::run_digest_engine::parts::Parts;
use deodarsieve::RunStart;
use deodarsieve::{CancelReason, ExecutionResult, FailureStatus};
use deodarsieve::{FlakyResult, LeakTimeoutResult, SlowTimeoutResult};

/// The greatest number of digits of a number.
const MAX_DIGITS: usize = 7;

/// The greatest number.
const MAX_NUMBER: usize = 1_000_000;

/// Parses the word for a result.
pub(crate) fn parse_result(word: &str) -> Option<ExecutionResult> {
    match word {
        "pass" => Some(ExecutionResult::Pass),
        "leak" => Some(ExecutionResult::Leak {
            result: LeakTimeoutResult::Pass,
        }),
        "leak-fail" => Some(ExecutionResult::Leak {
            result: LeakTimeoutResult::Fail,
        }),
        "fail" => Some(ExecutionResult::Fail {
            failure_status: FailureStatus::ExitCode(1),
            leaked: false,
        }),
        "exec-fail" => Some(ExecutionResult::ExecFail),
        "timeout" => Some(ExecutionResult::Timeout {
            result: SlowTimeoutResult::Fail,
        }),
        "timeout-pass" => Some(ExecutionResult::Timeout {
            result: SlowTimeoutResult::Pass,
        }),
        _ => None,
    }
}

/// Returns the word for a reason, as in line 1.
pub(crate) fn reason_text(reason: Option<CancelReason>) -> &'static str {
    match reason {
        None => "-",
        Some(CancelReason::SetupScriptFailure) => "setup-script-failure",
        Some(CancelReason::TestFailure) => "test-failure",
        Some(CancelReason::ReportError) => "report-error",
        Some(CancelReason::OutputLimit) => "output-limit",
        Some(CancelReason::TestFailureImmediate) => "test-failure-immediate",
        Some(CancelReason::GlobalTimeout) => "global-timeout",
        Some(CancelReason::Signal) => "signal",
        Some(CancelReason::Interrupt) => "interrupt",
        Some(CancelReason::SecondSignal) => "second-signal",
    }
}

/// Parses the word for a reason. The result is `Some(None)` for `-`.
fn parse_reason(word: &str) -> Option<Option<CancelReason>> {
    match word {
        "-" => Some(None),
        "setup-script-failure" => Some(Some(CancelReason::SetupScriptFailure)),
        "test-failure" => Some(Some(CancelReason::TestFailure)),
        "report-error" => Some(Some(CancelReason::ReportError)),
        "output-limit" => Some(Some(CancelReason::OutputLimit)),
        "test-failure-immediate" => Some(Some(CancelReason::TestFailureImmediate)),
        "global-timeout" => Some(Some(CancelReason::GlobalTimeout)),
        "signal" => Some(Some(CancelReason::Signal)),
        "interrupt" => Some(Some(CancelReason::Interrupt)),
        "second-signal" => Some(Some(CancelReason::SecondSignal)),
        _ => None,
    }
}

/// Returns true if all bytes are decimal digits.
fn are_digits(word: &[u8]) -> bool {
    word.iter().all(|b| b.is_ascii_digit())
}

/// Returns the value of at most [`MAX_DIGITS`] digits.
fn value_of(digits: &[u8]) -> usize {
    let mut value: usize = 0;
    for digit in digits {
        value = 10 * value + usize::from(*digit - b'0');
    }
    value
}

/// Parses a number: one to [`MAX_DIGITS`] digits, and at most [`MAX_NUMBER`].
fn parse_number(word: &[u8]) -> Option<usize> {
    if word.is_empty() || word.len() > MAX_DIGITS || !are_digits(word) {
        return None;
    }
    let value = value_of(word);
    if value > MAX_NUMBER {
        return None;
    }
    Some(value)
}

/// Parses the words after `run` or `sub-run`: two numbers and a reason.
pub(crate) fn parse_start(mut words: Parts<'_>) -> Option<RunStart> {
    match (words.next(), words.next(), words.next(), words.next()) {
        (Some(tests), Some(scripts), Some(reason), None) => Some(RunStart {
            initial_run_count: parse_number(tests.as_bytes())?,
            setup_scripts_initial_count: parse_number(scripts.as_bytes())?,
            skipped: 0,
            cancel_reason: parse_reason(reason)?,
        }),
        _ => None,
    }
}

/// Parses the words after the results of a test: whether the last attempt was slow, and the setting.
pub(crate) fn parse_flags(mut words: Parts<'_>) -> Option<(bool, FlakyResult)> {
    match (words.next(), words.next(), words.next()) {
        (None, _, _) => Some((false, FlakyResult::Pass)),
        (Some("slow"), None, _) => Some((true, FlakyResult::Pass)),
        (Some("flaky-fail"), None, _) => Some((false, FlakyResult::Fail)),
        (Some("slow"), Some("flaky-fail"), None) => Some((true, FlakyResult::Fail)),
        _ => None,
    }
}
