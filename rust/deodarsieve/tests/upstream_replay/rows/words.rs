//! Words that several questions share.

use crate::upstream_replay::escapes::unescaped;
use crate::upstream_replay::words::named_result;
use deodarsieve::{AbortStatus, ExecutionResult, FailureStatus};
use std::fmt;

/// Returns the text of a word, `-` for none.
pub fn text_in(word: &str) -> Option<String> {
    (word != "-").then(|| String::from(word))
}

/// Returns the bytes that a word spells, with escapes such as `\n` and `\xff`; `-` for none.
pub fn bytes_in(word: &str) -> Option<Vec<u8>> {
    (word != "-").then(|| unescaped(word))
}

/// Returns the text of a value, followed by the text under `#` if that is another.
pub fn shown<T: fmt::Display>(value: &T) -> String {
    let text = format!("{value}");
    let under_sharp = format!("{value:#}");
    if text == under_sharp {
        return text;
    }
    format!("{text} or {under_sharp}")
}

/// Returns the result of a process and whether it leaked, from words such as `exit 3`, `signal 15`
/// and `leaked signal 15`.
fn failure_in(word: &str) -> Option<(FailureStatus, bool)> {
    let (kind, number) = word.rsplit_once(' ')?;
    let number = number.parse().ok()?;
    let by_signal = FailureStatus::Abort(AbortStatus::UnixSignal(number));
    match kind {
        "exit" => Some((FailureStatus::ExitCode(number), false)),
        "signal" => Some((by_signal, false)),
        "leaked signal" => Some((by_signal, true)),
        _ => None,
    }
}

/// Returns the result that a word names: a result of any kind of case, or a failure.
pub fn result_in(word: &str) -> Option<ExecutionResult> {
    named_result(word).or_else(|| {
        let (failure_status, leaked) = failure_in(word)?;
        Some(ExecutionResult::Fail {
            failure_status,
            leaked,
        })
    })
}
