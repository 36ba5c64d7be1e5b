// Made by tools/erase from crates/run_events/src/unit_error/errors.rt. Do not edit.
//! The errors of a unit, one by one.

use crate::output_slice::subslice::TestOutputErrorSlice;
use crate::run_events_attempts::child::{ChildErrorDescription, ChildStartErrorDescription};
use crate::run_events_results::results::AbortDescription;
use core::fmt;

/// The abort of a unit's process. It is displayed as `process`, the text of the abort and, if the process
/// left a handle open, ` (leaked handles)`.
#[derive(Clone, Copy, Debug, PartialEq, Eq)]
pub struct UnitAbortDescription<'a> {
    /// What ended it.
    pub description: &'a AbortDescription,

    /// True if the process also left a handle open.
    pub leaked: bool,
}

impl fmt::Display for UnitAbortDescription<'_> {
    fn fmt(&self, f: &mut fmt::Formatter<'_>) -> fmt::Result {
        let description = self.description;
        let leak = leak_note(self.leaked);
        write!(f, "process {description}{leak}")
    }
}

/// Returns the note that a handle was left open, or no text.
fn leak_note(leaked: bool) -> &'static str {
    if leaked { " (leaked handles)" } else { "" }
}

/// An error of a unit. It is displayed like the error that it contains.
#[derive(Clone, Copy, Debug)]
#[non_exhaustive]
pub enum UnitError<'a> {
    /// The process was not started.
    Start(&'a ChildStartErrorDescription),

    /// The runner could not read from the process or wait for it.
    Output(&'a ChildErrorDescription),

    /// The process was ended from outside.
    Abort(UnitAbortDescription<'a>),

    /// The part of the output that explains the failure.
    Slice(TestOutputErrorSlice<'a>),
}

impl fmt::Display for UnitError<'_> {
    fn fmt(&self, f: &mut fmt::Formatter<'_>) -> fmt::Result {
        match self {
            UnitError::Start(error) => fmt::Display::fmt(error, f),
            UnitError::Output(error) => fmt::Display::fmt(error, f),
            UnitError::Abort(error) => fmt::Display::fmt(error, f),
            UnitError::Slice(slice) => write!(f, "{slice}"),
        }
    }
}
