//! Conversions from the values of a runner to the descriptions that reporters get.

use super::signal_names;
use crate::run_events_attempts::child::{
    ChildExecutionOutput, ChildExecutionOutputDescription, LiveSpec,
};
use crate::run_events_results::results::{
    AbortDescription, AbortStatus, ExecutionResult, ExecutionResultDescription, FailureDescription,
    FailureStatus,
};

/// The description has the name of the signal if its number means the same on Linux, macOS, the BSDs
/// and illumos: 1 to 6, 8, 9, 11, and 13 to 15. [`AbortDescription::from_status`] takes any name.
impl From<AbortStatus> for AbortDescription {
    fn from(status: AbortStatus) -> Self {
        AbortDescription::from_status(status, signal_names::of_abort(status))
    }
}

/// A signal has the name that the [`AbortDescription`] of its number has.
/// [`FailureDescription::from_status`] takes any name.
impl From<FailureStatus> for FailureDescription {
    fn from(status: FailureStatus) -> Self {
        FailureDescription::from_status(status, signal_names::of_failure(status))
    }
}

/// A signal has the name that the [`AbortDescription`] of its number has.
/// [`ExecutionResultDescription::from_status`] takes any name.
impl From<ExecutionResult> for ExecutionResultDescription {
    fn from(result: ExecutionResult) -> Self {
        ExecutionResultDescription::from_status(result, signal_names::of_result(result))
    }
}

/// A signal has the name that the [`AbortDescription`] of its number has.
/// [`ChildExecutionOutputDescription::from_output`] takes any name.
impl From<ChildExecutionOutput> for ChildExecutionOutputDescription<LiveSpec> {
    fn from(output: ChildExecutionOutput) -> Self {
        let name = match &output {
            ChildExecutionOutput::Output { result, .. } => result.and_then(signal_names::of_result),
            ChildExecutionOutput::StartError(_) => None,
        };
        ChildExecutionOutputDescription::from_output(output, name)
    }
}
