// Made by tools/erase from crates/run_events_results/src/results.rt. Do not edit.
//! The results of attempts, and the reasons to cancel a run.

use crate::run_events_results::config::{LeakTimeoutResult, SlowTimeoutResult};
use alloc::string::String;

mod failure;

pub use crate::run_events_results::results::failure::{
    AbortDescription, AbortStatus, FailureDescription, FailureStatus, SIGTERM,
};

/// The result of an attempt as the runner saw it: exit codes and signal numbers, without names.
///
/// ```
/// use deodarsieve::ExecutionResult;
///
/// fn word_of(result: ExecutionResult) -> &'static str {
///     if result.is_success() { "ok" } else { result.as_static_str() }
/// }
///
/// assert_eq!(word_of(ExecutionResult::Pass), "ok");
/// assert_eq!(word_of(ExecutionResult::ExecFail), "exec-fail");
/// ```
#[derive(Clone, Copy, Debug, PartialEq, Eq)]
pub enum ExecutionResult {
    /// The attempt succeeded.
    Pass,

    /// The attempt exited successfully, but one of its handles was still open after the leak timeout.
    Leak {
        /// How the leak counts.
        result: LeakTimeoutResult,
    },

    /// The attempt failed.
    Fail {
        /// The exit code or the abort.
        failure_status: FailureStatus,

        /// True if it also left a handle open.
        leaked: bool,
    },

    /// The attempt could not be executed, for example because its process could not be started.
    ExecFail,

    /// The attempt was ended because its time ran out.
    Timeout {
        /// How running out of time counts.
        result: SlowTimeoutResult,
    },
}

impl ExecutionResult {
    /// Returns true if the attempt passed, or if it leaked or ran out of time and that counts as
    /// passed.
    #[must_use]
    pub fn is_success(self) -> bool {
        match self {
            ExecutionResult::Pass
            | ExecutionResult::Leak {
                result: LeakTimeoutResult::Pass,
            }
            | ExecutionResult::Timeout {
                result: SlowTimeoutResult::Pass,
            } => true,
            ExecutionResult::Leak {
                result: LeakTimeoutResult::Fail,
            }
            | ExecutionResult::Fail { .. }
            | ExecutionResult::ExecFail
            | ExecutionResult::Timeout {
                result: SlowTimeoutResult::Fail,
            } => false,
        }
    }

    /// Returns the word for the result in machine-readable reports, for example `exec-fail`.
    #[must_use]
    pub fn as_static_str(&self) -> &'static str {
        match self {
            ExecutionResult::Pass => "pass",
            ExecutionResult::Leak { .. } => "leak",
            ExecutionResult::Fail { .. } => "fail",
            ExecutionResult::ExecFail => "exec-fail",
            ExecutionResult::Timeout { .. } => "timeout",
        }
    }
}

/// The result of an attempt as reporters get it: an [`ExecutionResult`] with the name of a signal or
/// the message of a Windows status code.
#[derive(Clone, Debug, PartialEq, Eq)]
#[cfg_attr(not(feature = "exhaustive"), non_exhaustive)]
#[cfg_attr(
    feature = "serde",
    derive(serde::Serialize, serde::Deserialize),
    serde(rename_all = "kebab-case", tag = "status")
)]
pub enum ExecutionResultDescription {
    /// The attempt succeeded.
    Pass,

    /// The attempt exited successfully, but one of its handles was still open after the leak timeout.
    Leak {
        /// How the leak counts.
        result: LeakTimeoutResult,
    },

    /// The attempt failed.
    Fail {
        /// The exit code or the abort.
        failure: FailureDescription,

        /// True if it also left a handle open.
        leaked: bool,
    },

    /// The attempt could not be executed, for example because its process could not be started.
    ExecFail,

    /// The attempt was ended because its time ran out.
    Timeout {
        /// How running out of time counts.
        result: SlowTimeoutResult,
    },
}

impl ExecutionResultDescription {
    /// Describes a result. `name` is the name of the signal without `SIG`, such as `TERM`. It is dropped
    /// if there is no signal.
    #[must_use]
    pub fn from_status(status: ExecutionResult, name: Option<String>) -> Self {
        match status {
            ExecutionResult::Pass => ExecutionResultDescription::Pass,
            ExecutionResult::Leak { result } => ExecutionResultDescription::Leak { result },
            ExecutionResult::Fail {
                failure_status,
                leaked,
            } => ExecutionResultDescription::Fail {
                failure: FailureDescription::from_status(failure_status, name),
                leaked,
            },
            ExecutionResult::ExecFail => ExecutionResultDescription::ExecFail,
            ExecutionResult::Timeout { result } => ExecutionResultDescription::Timeout { result },
        }
    }

    /// Returns true if the attempt passed, or if it leaked or ran out of time and that counts as
    /// passed.
    #[must_use]
    pub fn is_success(&self) -> bool {
        match self {
            ExecutionResultDescription::Pass
            | ExecutionResultDescription::Leak {
                result: LeakTimeoutResult::Pass,
            }
            | ExecutionResultDescription::Timeout {
                result: SlowTimeoutResult::Pass,
            } => true,
            ExecutionResultDescription::Leak {
                result: LeakTimeoutResult::Fail,
            }
            | ExecutionResultDescription::Fail { .. }
            | ExecutionResultDescription::ExecFail
            | ExecutionResultDescription::Timeout {
                result: SlowTimeoutResult::Fail,
            } => false,
        }
    }

    /// Returns the word for the result in machine-readable reports, for example `exec-fail`.
    #[must_use]
    pub fn as_static_str(&self) -> &'static str {
        match self {
            ExecutionResultDescription::Pass => "pass",
            ExecutionResultDescription::Leak { .. } => "leak",
            ExecutionResultDescription::Fail { .. } => "fail",
            ExecutionResultDescription::ExecFail => "exec-fail",
            ExecutionResultDescription::Timeout { .. } => "timeout",
        }
    }

    /// Returns true if the attempt was ended by the signal [`SIGTERM`] or with the Windows job
    /// object, which is how the runner ends a test. A test that got this signal from another process
    /// looks the same.
    #[must_use]
    pub fn is_termination_failure(&self) -> bool {
        match self {
            ExecutionResultDescription::Fail {
                failure: FailureDescription::Abort { abort },
                ..
            } => abort.is_termination(),
            ExecutionResultDescription::ExecFail
            | ExecutionResultDescription::Fail {
                failure: FailureDescription::ExitCode { .. },
                ..
            }
            | ExecutionResultDescription::Pass
            | ExecutionResultDescription::Leak { .. }
            | ExecutionResultDescription::Timeout { .. } => false,
        }
    }
}

/// The kind of unit that a process belongs to.
#[derive(Clone, Copy, Debug, PartialEq, Eq)]
pub enum UnitKind {
    /// A test.
    Test,

    /// A script, for example a setup script.
    Script,
}

impl UnitKind {
    /// The message while the runner waits for the process of a test.
    pub const WAITING_ON_TEST_MESSAGE: &'static str = "waiting on test process";

    /// The message while the runner waits for the process of a script.
    pub const WAITING_ON_SCRIPT_MESSAGE: &'static str = "waiting on script process";

    /// The description of the errors of a test.
    pub const EXECUTING_TEST_MESSAGE: &'static str = "executing test";

    /// The description of the errors of a script.
    pub const EXECUTING_SCRIPT_MESSAGE: &'static str = "executing script";

    /// Returns the message while the runner waits for the process of such a unit.
    #[must_use]
    pub fn waiting_on_message(&self) -> &'static str {
        match self {
            UnitKind::Test => UnitKind::WAITING_ON_TEST_MESSAGE,
            UnitKind::Script => UnitKind::WAITING_ON_SCRIPT_MESSAGE,
        }
    }

    /// Returns the description of the errors of such a unit.
    #[must_use]
    pub fn executing_message(&self) -> &'static str {
        match self {
            UnitKind::Test => UnitKind::EXECUTING_TEST_MESSAGE,
            UnitKind::Script => UnitKind::EXECUTING_SCRIPT_MESSAGE,
        }
    }
}

/// Why a run is cancelled, ordered from the least severe reason to the most severe. The reason of a
/// run may only be replaced by a greater one.
#[derive(Clone, Copy, Debug, PartialEq, Eq, PartialOrd, Ord)]
#[cfg_attr(
    feature = "serde",
    derive(serde::Serialize, serde::Deserialize),
    serde(rename_all = "kebab-case")
)]
pub enum CancelReason {
    /// A setup script failed.
    SetupScriptFailure,

    /// A test failed, and the run stops at a failure.
    TestFailure,

    /// A reporter could not write.
    ReportError,

    /// The run wrote more output than it may.
    OutputLimit,

    /// A test failed, and the run stops at once and ends the tests that are still running.
    TestFailureImmediate,

    /// The time for the whole run ran out.
    GlobalTimeout,

    /// The runner got a signal to end.
    Signal,

    /// The user interrupted the run.
    Interrupt,

    /// A second signal came while the run was ending.
    SecondSignal,
}

impl CancelReason {
    /// Returns the reason in words, for messages to a user. The two reasons of a failed test have the
    /// same words.
    #[must_use]
    pub fn to_static_str(self) -> &'static str {
        match self {
            CancelReason::SetupScriptFailure => "setup script failure",
            CancelReason::TestFailure => "test failure",
            CancelReason::ReportError => "reporting error",
            CancelReason::OutputLimit => "output limit",
            CancelReason::TestFailureImmediate => "test failure",
            CancelReason::GlobalTimeout => "global timeout",
            CancelReason::Signal => "signal",
            CancelReason::Interrupt => "interrupt",
            CancelReason::SecondSignal => "second signal",
        }
    }
}
