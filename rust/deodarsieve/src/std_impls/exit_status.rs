//! Results of processes, from the exit statuses of the operating system.

use crate::run_events_results::results::{AbortStatus, FailureStatus};
use std::process::ExitStatus;

impl AbortStatus {
    /// Returns what ended a process from outside, or `None` if the process exited: on Unix the
    /// signal, and on Windows the status code if it is negative. On other systems there is none.
    ///
    /// Only with the feature `std`.
    #[must_use]
    pub fn extract(status: ExitStatus) -> Option<Self> {
        abort_of(status)
    }
}

impl FailureStatus {
    /// Returns what ended a process from outside, or its exit code if it exited.
    ///
    /// Only with the feature `std`.
    ///
    /// # Panics
    ///
    /// Panics if the process was stopped or continued, and has not ended. [`Child::wait`] returns
    /// no such status.
    ///
    /// [`Child::wait`]: std::process::Child::wait
    #[must_use]
    pub fn extract(status: ExitStatus) -> Self {
        match (AbortStatus::extract(status), status.code()) {
            (Some(abort), _) => FailureStatus::Abort(abort),
            (None, Some(code)) => FailureStatus::ExitCode(code),
            (None, None) => panic!("the process was stopped or continued, and has not ended"),
        }
    }
}

#[cfg(unix)]
fn abort_of(status: ExitStatus) -> Option<AbortStatus> {
    use std::os::unix::process::ExitStatusExt;
    status.signal().map(AbortStatus::UnixSignal)
}

#[cfg(windows)]
fn abort_of(status: ExitStatus) -> Option<AbortStatus> {
    abort_of_code(status.code()?)
}

/// Returns the abort that a negative exit code of Windows means.
#[cfg(windows)]
fn abort_of_code(code: i32) -> Option<AbortStatus> {
    (code < 0).then_some(AbortStatus::WindowsNtStatus(code))
}

#[cfg(not(any(unix, windows)))]
fn abort_of(_: ExitStatus) -> Option<AbortStatus> {
    None
}

#[cfg(all(test, windows))]
mod tests {
    use super::{AbortStatus, abort_of_code};

    #[test]
    fn only_a_negative_code_is_an_abort() {
        for code in [i32::MIN, -1] {
            let abort = AbortStatus::WindowsNtStatus(code);
            assert_eq!(abort_of_code(code), Some(abort));
        }
        assert_eq!([0, 3, i32::MAX].map(abort_of_code), [None; 3]);
    }
}
