// Made by tools/erase from crates/run_events_results/src/results/failure.rt. Do not edit.
//! The exit codes and aborts of failed processes, and their texts.

use alloc::string::String;
use core::fmt;

/// The number of the signal that asks a process to end, which is the same on all platforms.
pub const SIGTERM: i32 = 15;

/// The exit code or the abort of a failed process as the runner saw it.
#[derive(Clone, Copy, Debug, PartialEq, Eq)]
pub enum FailureStatus {
    /// The process exited with this code.
    ExitCode(i32),

    /// The process was ended from outside.
    Abort(AbortStatus),
}

/// What ended a process from outside, as the runner saw it.
///
/// Its `Debug` is on one line in every style, for example `UnixSignal(15)`.
#[derive(Clone, Copy, PartialEq, Eq)]
pub enum AbortStatus {
    /// A signal of this number.
    UnixSignal(i32),

    /// A Windows status code.
    #[cfg(windows)]
    WindowsNtStatus(i32),

    /// The Windows job object that holds the process was ended.
    #[cfg(windows)]
    JobObject,
}

impl fmt::Debug for AbortStatus {
    fn fmt(&self, f: &mut fmt::Formatter<'_>) -> fmt::Result {
        match self {
            AbortStatus::UnixSignal(signal) => write!(f, "UnixSignal({signal})"),
            #[cfg(windows)]
            AbortStatus::WindowsNtStatus(code) => write!(f, "WindowsNtStatus({code:x})"),
            #[cfg(windows)]
            AbortStatus::JobObject => write!(f, "JobObject"),
        }
    }
}

/// The exit code or the abort of a failed process, displayed for example as `exited with code 3` or
/// as the text of its [`AbortDescription`].
#[derive(Clone, Debug, PartialEq, Eq)]
#[cfg_attr(not(feature = "exhaustive"), non_exhaustive)]
#[cfg_attr(
    feature = "serde",
    derive(serde::Serialize, serde::Deserialize),
    serde(rename_all = "kebab-case", tag = "kind")
)]
pub enum FailureDescription {
    /// The process exited with this code.
    ExitCode {
        /// The code.
        code: i32,
    },

    /// The process was ended from outside.
    Abort {
        /// What ended it.
        abort: AbortDescription,
    },
}

impl FailureDescription {
    /// Describes a failure. `name` is the name of the signal without `SIG`, such as `TERM`. It is dropped
    /// for an exit code.
    #[must_use]
    pub fn from_status(status: FailureStatus, name: Option<String>) -> Self {
        match status {
            FailureStatus::ExitCode(code) => FailureDescription::ExitCode { code },
            FailureStatus::Abort(abort) => FailureDescription::Abort {
                abort: AbortDescription::from_status(abort, name),
            },
        }
    }
}

impl fmt::Display for FailureDescription {
    fn fmt(&self, f: &mut fmt::Formatter<'_>) -> fmt::Result {
        match self {
            FailureDescription::ExitCode { code } => write!(f, "exited with code {code}"),
            FailureDescription::Abort { abort } => fmt::Display::fmt(abort, f),
        }
    }
}

/// What ended a process from outside. The cases of all platforms are here, since a report can be
/// read on a platform other than the one of the run.
///
/// It is displayed as `aborted with signal 15 (SIGTERM)`, `aborted with code 0xc0000005: message` or
/// `terminated via job object`. A name or a message that is `None` is left out.
#[derive(Clone, Debug, PartialEq, Eq)]
#[cfg_attr(not(feature = "exhaustive"), non_exhaustive)]
#[cfg_attr(
    feature = "serde",
    derive(serde::Serialize, serde::Deserialize),
    serde(rename_all = "kebab-case", tag = "kind")
)]
pub enum AbortDescription {
    /// A signal.
    UnixSignal {
        /// The number of the signal.
        signal: i32,

        /// The name of the signal without `SIG`, if it is known.
        name: Option<String>,
    },

    /// A Windows status code.
    WindowsNtStatus {
        /// The code.
        code: i32,

        /// The message of the system for the code, if there is one.
        message: Option<String>,
    },

    /// The Windows job object that holds the process was ended.
    WindowsJobObject,
}

impl AbortDescription {
    /// Describes an abort. `name` is the name of the signal without `SIG`, such as `TERM`. For a Windows
    /// status code it is the message of the system.
    #[must_use]
    pub fn from_status(status: AbortStatus, name: Option<String>) -> Self {
        match status {
            AbortStatus::UnixSignal(signal) => AbortDescription::UnixSignal { signal, name },
            #[cfg(windows)]
            AbortStatus::WindowsNtStatus(code) => AbortDescription::WindowsNtStatus {
                code,
                message: name,
            },
            #[cfg(windows)]
            AbortStatus::JobObject => AbortDescription::WindowsJobObject,
        }
    }

    /// Returns true if the runner itself ends a test like this.
    pub(crate) fn is_termination(&self) -> bool {
        match self {
            AbortDescription::UnixSignal { signal, .. } => *signal == SIGTERM,
            AbortDescription::WindowsNtStatus { .. } => false,
            AbortDescription::WindowsJobObject => true,
        }
    }
}

impl fmt::Display for AbortDescription {
    fn fmt(&self, f: &mut fmt::Formatter<'_>) -> fmt::Result {
        match self {
            AbortDescription::UnixSignal { signal, name } => {
                let name = Within {
                    before: " (SIG",
                    text: name,
                    after: ")",
                };
                write!(f, "aborted with signal {signal}{name}")
            }
            AbortDescription::WindowsNtStatus { code, message } => {
                let digits = CodeDigits { code: *code };
                let message = Within {
                    before: ": ",
                    text: message,
                    after: "",
                };
                write!(f, "aborted with code 0x{digits}{message}")
            }
            AbortDescription::WindowsJobObject => f.write_str("terminated via job object"),
        }
    }
}

/// A text between two others, or nothing if there is no text.
#[derive(Clone, Copy)]
struct Within<'a> {
    before: &'static str,
    text: &'a Option<String>,
    after: &'static str,
}

impl fmt::Display for Within<'_> {
    fn fmt(&self, f: &mut fmt::Formatter<'_>) -> fmt::Result {
        match self.text {
            None => Ok(()),
            Some(text) => write!(f, "{}{text}{}", self.before, self.after),
        }
    }
}

/// A code, displayed as eight lower-case hexadecimal digits.
#[derive(Clone, Copy)]
struct CodeDigits {
    code: i32,
}

impl fmt::Display for CodeDigits {
    fn fmt(&self, f: &mut fmt::Formatter<'_>) -> fmt::Result {
        let bits = self.code as u32;
        write!(f, "{bits:08x}")
    }
}
