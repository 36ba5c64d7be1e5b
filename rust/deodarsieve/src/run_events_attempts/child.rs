// Made by tools/erase from crates/run_events_attempts/src/child.rt. Do not edit.
//! The output of a child process, and the errors in starting it, reading from it or waiting for it.

use crate::run_events_results::results::ExecutionResultDescription;

mod error_list;
mod errors;
mod execution;
mod output;

pub use crate::run_events_attempts::child::error_list::ErrorList;
pub use crate::run_events_attempts::child::errors::{
    ChildError, ChildErrorDescription, ChildFdError, ChildStartError, ChildStartErrorDescription,
};
pub use crate::run_events_attempts::child::execution::ChildExecutionOutput;
pub use crate::run_events_attempts::child::output::{
    ChildOutput, ChildOutputDescription, ChildSingleOutput, ChildSplitOutput,
};

/// The form in which events hold the output of a child process: as it was captured, or as something
/// that represents it.
pub trait OutputSpec {
    /// The description of captured output.
    type ChildOutputDesc;
}

/// Output that was captured in this process.
#[derive(Clone, Copy, Debug, PartialEq, Eq)]
pub struct LiveSpec;

impl OutputSpec for LiveSpec {
    type ChildOutputDesc = ChildOutputDescription;
}

/// The output and the errors of a child process, or why it was not started, as reporters get it.
#[cfg_attr(
    feature = "serde",
    derive(serde::Serialize, serde::Deserialize),
    serde(
        rename_all = "kebab-case",
        tag = "type",
        bound(
            serialize = "S::ChildOutputDesc: serde::Serialize",
            deserialize = "S::ChildOutputDesc: serde::Deserialize<'de>"
        )
    )
)]
pub enum ChildExecutionOutputDescription<S: OutputSpec> {
    /// The process was started.
    Output {
        /// The result of the process, or `None` if it is still running.
        result: Option<ExecutionResultDescription>,

        /// The captured output.
        output: S::ChildOutputDesc,

        /// The errors in reading from it or waiting for it, or `None` if there were none.
        errors: Option<ErrorList<ChildErrorDescription>>,
    },

    /// The process was not started.
    StartError(ChildStartErrorDescription),
}

impl<S: OutputSpec> ChildExecutionOutputDescription<S> {
    /// Returns true if the process was not started, if there were errors in reading from it or
    /// waiting for it, or if its result is not a success. A process that is still running has not
    /// failed.
    #[must_use]
    pub fn has_errors(&self) -> bool {
        match self {
            ChildExecutionOutputDescription::StartError(_) => true,
            ChildExecutionOutputDescription::Output { result, errors, .. } => {
                errors.is_some() || result.as_ref().is_some_and(|status| !status.is_success())
            }
        }
    }
}
