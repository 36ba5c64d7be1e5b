// Made by tools/erase from crates/run_events/src/unit_error.rt. Do not edit.
//! The errors of a test or a setup script.

use crate::output_slice::subslice::TestOutputErrorSlice;
use crate::run_events_attempts::child::{
    ChildErrorDescription, ChildExecutionOutputDescription, ChildOutputDescription,
    ChildSingleOutput, ChildStartErrorDescription, ErrorList, LiveSpec,
};
use crate::run_events_results::results::{
    ExecutionResultDescription, FailureDescription, UnitKind,
};
use alloc::vec::Vec;

mod errors;

pub use crate::run_events::unit_error::errors::{UnitAbortDescription, UnitError};

/// The errors of a unit: the error in starting it, the errors in reading from it and waiting for it,
/// its abort, and the part of a failed test's output that explains its failure. All of them are
/// borrowed from the output of its process.
///
/// ```
/// use deodarsieve::{
///     ChildExecutionOutputDescription, LiveSpec, TestOutputErrorSlice, UnitErrorDescription, UnitKind,
/// };
///
/// fn message_of(
///     output: &ChildExecutionOutputDescription<LiveSpec>,
/// ) -> Option<TestOutputErrorSlice<'_>> {
///     if UnitErrorDescription::can_describe(UnitKind::Test, output) {
///         UnitErrorDescription::new(UnitKind::Test, output).output_slice()
///     } else {
///         None
///     }
/// }
/// ```
#[derive(Clone, Debug)]
pub struct UnitErrorDescription<'a> {
    pub(crate) kind: UnitKind,
    pub(crate) start_error: Option<&'a ChildStartErrorDescription>,
    pub(crate) output_errors: Option<&'a ErrorList<ChildErrorDescription>>,
    pub(crate) abort: Option<UnitAbortDescription<'a>>,
    pub(crate) output_slice: Option<TestOutputErrorSlice<'a>>,
}

impl<'a> UnitErrorDescription<'a> {
    /// Returns true if the errors of this unit can be described. The output of a failed test is
    /// searched, so it must be loaded.
    #[must_use]
    pub fn can_describe(
        kind: UnitKind,
        output: &ChildExecutionOutputDescription<LiveSpec>,
    ) -> bool {
        match output {
            ChildExecutionOutputDescription::StartError(_) => true,
            ChildExecutionOutputDescription::Output { result, output, .. } => {
                !failed_test(kind, result) || output.is_loaded()
            }
        }
    }

    /// Describes the errors of a unit of this kind with this output.
    ///
    /// An error in starting the unit is the only error. Otherwise there can be an abort, and for a
    /// failed test a part of its output. If both streams were captured as one, they are searched as
    /// both.
    ///
    /// The output of a failed test must be loaded; [`Self::can_describe`] tests it.
    ///
    /// # Panics
    ///
    /// Panics if the unit is a failed test and its output was not loaded.
    #[track_caller]
    #[must_use]
    pub fn new(
        kind: UnitKind,
        output: &'a ChildExecutionOutputDescription<LiveSpec>,
    ) -> UnitErrorDescription<'a> {
        match output {
            ChildExecutionOutputDescription::StartError(error) => UnitErrorDescription {
                kind,
                start_error: Some(error),
                output_errors: None,
                abort: None,
                output_slice: None,
            },
            ChildExecutionOutputDescription::Output {
                result,
                output,
                errors,
            } => UnitErrorDescription {
                kind,
                start_error: None,
                output_errors: errors.as_ref(),
                abort: result.as_ref().and_then(abort_of),
                output_slice: if failed_test(kind, result) {
                    extracted(output)
                } else {
                    None
                },
            },
        }
    }

    /// Returns the part of a failed test's output that explains its failure.
    #[must_use]
    pub fn output_slice(&self) -> Option<TestOutputErrorSlice<'a>> {
        self.output_slice
    }

    /// Returns all errors, or `None` if there are none: the error of the start, those of the output,
    /// the abort and the part of the output. Their description is that of the kind of unit.
    #[must_use]
    pub fn unit_errors(&self) -> Option<ErrorList<UnitError<'a>>> {
        let mut errors = Vec::new();
        self.push_exec_fail(&mut errors);
        self.push_child_process(&mut errors);
        ErrorList::new(self.kind.executing_message(), errors)
    }

    /// Returns the errors in running the unit, or `None` if there are none: the error of the start,
    /// and those of the output. Their description is that of the kind of unit.
    #[must_use]
    pub fn exec_fail_unit_errors(&self) -> Option<ErrorList<UnitError<'a>>> {
        let mut exec_fail = Vec::new();
        self.push_exec_fail(&mut exec_fail);
        ErrorList::new(self.kind.executing_message(), exec_fail)
    }

    /// Returns the errors of the process itself, or `None` if there are none: the abort and the part
    /// of the output. Their description is that of the kind of unit.
    #[must_use]
    pub fn child_process_unit_errors(&self) -> Option<ErrorList<UnitError<'a>>> {
        let mut child_process = Vec::new();
        self.push_child_process(&mut child_process);
        ErrorList::new(self.kind.executing_message(), child_process)
    }

    /// Appends the errors in running the unit.
    fn push_exec_fail(&self, errors: &mut Vec<UnitError<'a>>) {
        if let Some(error) = self.start_error {
            errors.push(UnitError::Start(error));
        }
        if let Some(list) = self.output_errors {
            push_output_errors(list, errors);
        }
    }

    /// Appends the errors of the process itself.
    fn push_child_process(&self, errors: &mut Vec<UnitError<'a>>) {
        if let Some(abort) = self.abort {
            errors.push(UnitError::Abort(abort));
        }
        if let Some(slice) = self.output_slice {
            errors.push(UnitError::Slice(slice));
        }
    }
}

/// Appends the errors in reading from a process and waiting for it.
fn push_output_errors<'a>(
    list: &'a ErrorList<ChildErrorDescription>,
    errors: &mut Vec<UnitError<'a>>,
) {
    for error in list.iter() {
        errors.push(UnitError::Output(error));
    }
}

/// Returns true if the unit is a failed test.
fn failed_test(kind: UnitKind, status: &Option<ExecutionResultDescription>) -> bool {
    match (kind, status) {
        (UnitKind::Test, Some(status)) => !status.is_success(),
        (UnitKind::Test, None) | (UnitKind::Script, _) => false,
    }
}

/// Returns the abort of a failure, if there is one.
fn abort_of(status: &ExecutionResultDescription) -> Option<UnitAbortDescription<'_>> {
    match status {
        ExecutionResultDescription::Fail {
            failure: FailureDescription::Abort { abort },
            leaked,
        } => Some(UnitAbortDescription {
            description: abort,
            leaked: *leaked,
        }),
        ExecutionResultDescription::Pass
        | ExecutionResultDescription::Leak { .. }
        | ExecutionResultDescription::Fail {
            failure: FailureDescription::ExitCode { .. },
            ..
        }
        | ExecutionResultDescription::ExecFail
        | ExecutionResultDescription::Timeout { .. } => None,
    }
}

/// Returns the part of loaded output that explains the failure of a test.
#[track_caller]
fn extracted(output: &ChildOutputDescription) -> Option<TestOutputErrorSlice<'_>> {
    match output {
        ChildOutputDescription::Split { stdout, stderr } => {
            TestOutputErrorSlice::heuristic_extract(captured(stdout), captured(stderr))
        }
        ChildOutputDescription::Combined { output } => {
            let both = &output.buf()[..];
            TestOutputErrorSlice::heuristic_extract(Some(both), Some(both))
        }
        ChildOutputDescription::NotLoaded => {
            unreachable!("output was not loaded: `can_describe` tests it")
        }
    }
}

/// Returns the bytes of a stream, if it was captured.
fn captured(output: &Option<ChildSingleOutput>) -> Option<&[u8]> {
    output.as_ref().map(|output| &output.buf()[..])
}
