// Made by tools/erase from crates/run_events_attempts/src/child/execution.rt. Do not edit.
//! The output and the errors of a child process, from the runner to its reporters.

use crate::run_events_attempts::child::{
    ChildError, ChildErrorDescription, ChildExecutionOutputDescription, ChildOutput,
    ChildOutputDescription, ChildStartError, ChildStartErrorDescription, ErrorList, LiveSpec,
};
use crate::run_events_results::results::{ExecutionResult, ExecutionResultDescription};
use alloc::string::String;

/// The output and the errors of a child process, or why it was not started, as the runner gets it.
#[derive(Clone, Debug, PartialEq, Eq)]
pub enum ChildExecutionOutput {
    /// The process was started.
    Output {
        /// The result of the process, or `None` if it is still running.
        result: Option<ExecutionResult>,

        /// The captured output.
        output: ChildOutput,

        /// The errors in reading from it or waiting for it, or `None` if there were none.
        errors: Option<ErrorList<ChildError>>,
    },

    /// The process was not started.
    StartError(ChildStartError),
}

impl ChildExecutionOutputDescription<LiveSpec> {
    /// Describes the output and the errors of a child process. `name` is the name of the signal that
    /// ended the process, without `SIG`, such as `TERM`. It is dropped if there is no signal.
    #[must_use]
    pub fn from_output(output: ChildExecutionOutput, name: Option<String>) -> Self {
        match output {
            ChildExecutionOutput::StartError(error) => {
                let error = ChildStartErrorDescription::from(error);
                ChildExecutionOutputDescription::StartError(error)
            }
            ChildExecutionOutput::Output {
                result,
                output,
                errors,
            } => ChildExecutionOutputDescription::Output {
                result: result.map(|status| ExecutionResultDescription::from_status(status, name)),
                output: ChildOutputDescription::from(output),
                errors: errors.map(|errors| errors.map(ChildErrorDescription::from)),
            },
        }
    }
}
