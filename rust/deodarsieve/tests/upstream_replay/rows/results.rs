//! Results and aborts, and their texts.

use crate::upstream_replay::rows::words::{result_in, shown, text_in};
use deodarsieve::{
    AbortDescription, AbortStatus, ExecutionResult, ExecutionResultDescription, FailureDescription,
};

/// Returns whether the result succeeds, its word, and both of its description; then whether the
/// runner seems to have ended the process.
fn of_result(word: &str) -> Option<String> {
    let result = result_in(word)?;
    let described = ExecutionResultDescription::from_status(result, None);
    Some(format!(
        "{} {}, {} {}, {}",
        result.is_success(),
        result.as_static_str(),
        described.is_success(),
        described.as_static_str(),
        described.is_termination_failure()
    ))
}

/// Returns the description of a result with a name, and the text of its failure.
fn of_description(word: &str, name: &str) -> Option<String> {
    let result = result_in(word)?;
    let described = ExecutionResultDescription::from_status(result, text_in(name));
    let ExecutionResult::Fail { failure_status, .. } = result else {
        return Some(format!("{described:?}"));
    };
    let failure = FailureDescription::from_status(failure_status, text_in(name));
    Some(format!("{described:?}: {}", shown(&failure)))
}

/// Returns the text of an abort by a signal, and both forms of the debugging output of its status.
fn of_signal(signal: &str, name: &str) -> Option<String> {
    let status = AbortStatus::UnixSignal(signal.parse().ok()?);
    let abort = AbortDescription::from_status(status, text_in(name));
    Some(format!("{}, {status:?}, {status:#?}", shown(&abort)))
}

/// Returns the answer for an abort by a code of Windows.
fn of_code(code: &str, message: &str) -> Option<String> {
    Some(of_abort(AbortDescription::WindowsNtStatus {
        code: code.parse().ok()?,
        message: text_in(message),
    }))
}

/// Returns the text of an abort, and whether the runner seems to have ended the process by it.
fn of_abort(abort: AbortDescription) -> String {
    let text = shown(&abort);
    let described = ExecutionResultDescription::Fail {
        failure: FailureDescription::Abort { abort },
        leaked: false,
    };
    format!("{text}, {}", described.is_termination_failure())
}

/// Returns the result of the crates, or `None` if the question is of another group.
pub fn answer(parts: &[&str]) -> Option<String> {
    match parts {
        ["result", word] => of_result(word),
        ["from_status", word, name] => of_description(word, name),
        ["abort by signal", signal, name] => of_signal(signal, name),
        ["abort by code", code, message] => of_code(code, message),
        ["abort by job object"] => Some(of_abort(AbortDescription::WindowsJobObject)),
        _ => None,
    }
}
