// Made by tools/erase from crates/run_events_attempts/src/attempts.rt. Do not edit.
//! The attempts to run a test or a setup script.

use crate::moment::Moment;
use crate::run_events_attempts::child::{ChildExecutionOutputDescription, OutputSpec};
use crate::run_events_results::results::ExecutionResultDescription;
use alloc::collections::BTreeMap;
use alloc::string::String;
use core::time::Duration;

mod description;
mod statuses;

pub use crate::run_events_attempts::attempts::description::ExecutionDescription;
pub use crate::run_events_attempts::attempts::statuses::{
    EmptyStatuses, ExecutionStatuses, ExecutionStatusesIter,
};

/// The number of an attempt, and how many there are at most. Ordered by the number, then by the
/// total.
#[derive(Clone, Copy, Debug, PartialEq, Eq, PartialOrd, Ord)]
#[cfg_attr(
    feature = "serde",
    derive(serde::Serialize, serde::Deserialize),
    serde(rename_all = "kebab-case")
)]
pub struct RetryData {
    /// The number of the attempt, counted from 1.
    pub attempt: u32,

    /// The greatest number of attempts.
    pub total_attempts: u32,
}

impl RetryData {
    /// Returns true if no attempt can follow this one, because its number is at least the total.
    #[must_use]
    pub fn is_last_attempt(&self) -> bool {
        self.attempt >= self.total_attempts
    }
}

/// The errors of an attempt as texts. A runner makes them for its reporters, for example from a
/// `UnitErrorDescription`.
#[derive(Clone, Debug, PartialEq, Eq)]
#[cfg_attr(
    feature = "serde",
    derive(serde::Serialize, serde::Deserialize),
    serde(rename_all = "kebab-case")
)]
pub struct ErrorSummary {
    /// A summary in one line.
    pub short_message: String,

    /// The full description of the errors.
    pub description: String,
}

/// The part of an attempt's output that explains its failure. A runner makes it for its reporters, for
/// example from the `output_slice` of a `UnitErrorDescription`.
#[derive(Clone, Debug, PartialEq, Eq)]
#[cfg_attr(
    feature = "serde",
    derive(serde::Serialize, serde::Deserialize),
    serde(rename_all = "kebab-case")
)]
pub struct OutputErrorSlice {
    /// The part as text, with U+FFFD in place of each piece that is not UTF-8.
    pub slice: String,

    /// The offset of the part in the stream in which it was found, in bytes.
    pub start: usize,
}

/// The environment variables that a setup script sets for the tests after it.
#[derive(Clone, Debug, PartialEq, Eq)]
#[cfg_attr(
    feature = "serde",
    derive(serde::Serialize, serde::Deserialize),
    serde(rename_all = "kebab-case")
)]
pub struct SetupScriptEnvMap {
    /// The names of the variables and their values.
    pub env_map: BTreeMap<String, String>,
}

/// One finished attempt to run a test.
#[cfg_attr(
    feature = "serde",
    derive(serde::Serialize, serde::Deserialize),
    serde(
        rename_all = "kebab-case",
        bound(
            serialize = "S::ChildOutputDesc: serde::Serialize",
            deserialize = "S::ChildOutputDesc: serde::Deserialize<'de>"
        )
    )
)]
pub struct ExecuteStatus<S: OutputSpec> {
    /// The number of the attempt.
    pub retry_data: RetryData,

    /// The output and the errors of its process.
    pub output: ChildExecutionOutputDescription<S>,

    /// The result of the attempt. The counters and levels of a test depend on the result of its last
    /// attempt, and not on the results of earlier ones.
    pub result: ExecutionResultDescription,

    /// The time when it began.
    pub start_time: Moment,

    /// How long it took.
    pub time_taken: Duration,

    /// True if it took longer than the slow timeout.
    pub is_slow: bool,

    /// How long the runner waited before the attempt, for example because of a backoff.
    pub delay_before_start: Duration,

    /// The errors as texts, if there were any.
    pub error_summary: Option<ErrorSummary>,

    /// The part of its output that explains its failure, if one was found.
    pub output_error_slice: Option<OutputErrorSlice>,
}

/// A finished setup script. A script is run only once.
#[cfg_attr(
    feature = "serde",
    derive(serde::Serialize, serde::Deserialize),
    serde(
        rename_all = "kebab-case",
        bound(
            serialize = "S::ChildOutputDesc: serde::Serialize",
            deserialize = "S::ChildOutputDesc: serde::Deserialize<'de>"
        )
    )
)]
pub struct SetupScriptExecuteStatus<S: OutputSpec> {
    /// The output and the errors of its process.
    pub output: ChildExecutionOutputDescription<S>,

    /// The result of the script. The counters depend only on this field.
    pub result: ExecutionResultDescription,

    /// The time when it began.
    pub start_time: Moment,

    /// How long it took.
    pub time_taken: Duration,

    /// True if it took longer than the slow timeout.
    pub is_slow: bool,

    /// The environment variables that it set, if it succeeded.
    pub env_map: Option<SetupScriptEnvMap>,

    /// The errors as texts, if there were any.
    pub error_summary: Option<ErrorSummary>,
}
