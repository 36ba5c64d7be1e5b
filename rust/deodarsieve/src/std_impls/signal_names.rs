//! The names of signals.

use crate::run_events_results::results::{AbortStatus, ExecutionResult, FailureStatus};
use alloc::string::String;

/// Returns the name of a signal without `SIG`, or `None` if the number is not one of those that
/// have the same name on Linux, macOS, the BSDs and illumos. The others have names that depend on
/// the system.
fn signal_name(signal: i32) -> Option<&'static str> {
    match signal {
        1 => Some("HUP"),
        2 => Some("INT"),
        3 => Some("QUIT"),
        4 => Some("ILL"),
        5 => Some("TRAP"),
        6 => Some("ABRT"),
        8 => Some("FPE"),
        9 => Some("KILL"),
        11 => Some("SEGV"),
        13 => Some("PIPE"),
        14 => Some("ALRM"),
        15 => Some("TERM"),
        _ => None,
    }
}

/// Returns the name of the signal that ended a process. No message is looked up for a Windows
/// status code: that needs `unsafe` calls of the system.
pub(super) fn of_abort(status: AbortStatus) -> Option<String> {
    match status {
        AbortStatus::UnixSignal(signal) => signal_name(signal).map(String::from),
        #[cfg(windows)]
        AbortStatus::WindowsNtStatus(_) | AbortStatus::JobObject => None,
    }
}

/// Returns the name of the signal by which a process failed.
pub(super) fn of_failure(status: FailureStatus) -> Option<String> {
    match status {
        FailureStatus::ExitCode(_) => None,
        FailureStatus::Abort(abort) => of_abort(abort),
    }
}

/// Returns the name of the signal in a result.
pub(super) fn of_result(result: ExecutionResult) -> Option<String> {
    match result {
        ExecutionResult::Fail { failure_status, .. } => of_failure(failure_status),
        ExecutionResult::Pass
        | ExecutionResult::Leak { .. }
        | ExecutionResult::ExecFail
        | ExecutionResult::Timeout { .. } => None,
    }
}
