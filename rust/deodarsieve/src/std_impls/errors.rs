//! `Error` for the error types of the layer, and `Display` for those of a runner. The text of an error
//! names the failed operation, and its source is the cause.

use crate::output_slice::TestOutputErrorSlice;
use crate::run_events::unit_error::{UnitAbortDescription, UnitError};
use crate::run_events_attempts::attempts::EmptyStatuses;
#[cfg(feature = "serde_json")]
use crate::run_events_attempts::chain::FromValueError;
use crate::run_events_attempts::child::{
    ChildError, ChildErrorDescription, ChildFdError, ChildStartError, ChildStartErrorDescription,
};
use crate::run_events_stats::stats::CounterFull;
use core::error::Error;
use core::fmt;

/// Writes the text of the description.
impl fmt::Display for ChildStartError {
    fn fmt(&self, f: &mut fmt::Formatter<'_>) -> fmt::Result {
        ChildStartErrorDescription::from(self.clone()).fmt(f)
    }
}

/// Writes the text of the description.
impl fmt::Display for ChildError {
    fn fmt(&self, f: &mut fmt::Formatter<'_>) -> fmt::Result {
        ChildErrorDescription::from(self.clone()).fmt(f)
    }
}

/// Writes the text of the description.
impl fmt::Display for ChildFdError {
    fn fmt(&self, f: &mut fmt::Formatter<'_>) -> fmt::Result {
        ChildError::from(self.clone()).fmt(f)
    }
}

impl Error for ChildStartErrorDescription {
    fn source(&self) -> Option<&(dyn Error + 'static)> {
        Some(self.cause())
    }
}

impl Error for ChildErrorDescription {
    fn source(&self) -> Option<&(dyn Error + 'static)> {
        Some(self.cause())
    }
}

impl Error for ChildStartError {
    fn source(&self) -> Option<&(dyn Error + 'static)> {
        match self {
            ChildStartError::TempPath(cause) | ChildStartError::Spawn(cause) => Some(cause),
        }
    }
}

impl Error for ChildFdError {
    fn source(&self) -> Option<&(dyn Error + 'static)> {
        match self {
            ChildFdError::ReadStdout(cause)
            | ChildFdError::ReadStderr(cause)
            | ChildFdError::ReadCombined(cause)
            | ChildFdError::Wait(cause) => Some(cause),
        }
    }
}

impl Error for ChildError {
    fn source(&self) -> Option<&(dyn Error + 'static)> {
        match self {
            ChildError::Fd(error) => error.source(),
            ChildError::SetupScriptOutput(cause) => Some(cause),
        }
    }
}

impl Error for UnitError<'_> {
    fn source(&self) -> Option<&(dyn Error + 'static)> {
        match self {
            UnitError::Start(error) => error.source(),
            UnitError::Output(error) => error.source(),
            UnitError::Abort(_) | UnitError::Slice(_) => None,
        }
    }
}

impl Error for UnitAbortDescription<'_> {}

impl Error for TestOutputErrorSlice<'_> {}

impl Error for EmptyStatuses {}

impl Error for CounterFull {}

#[cfg(feature = "serde_json")]
impl Error for FromValueError {}
