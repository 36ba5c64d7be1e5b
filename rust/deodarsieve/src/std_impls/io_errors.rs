//! Errors of the operating system, as a runner gets them.

use crate::run_events_attempts::chain::SerializableError;
use alloc::sync::Arc;
use std::io;

/// The message and the messages of the sources of an error of the operating system:
///
/// ```
/// use deodarsieve::{ChildStartError, ChildStartErrorDescription};
/// use std::io;
///
/// let error = io::Error::new(io::ErrorKind::NotFound, "no such program");
/// let start = ChildStartErrorDescription::from(ChildStartError::Spawn(error.into()));
/// assert_eq!(start.to_string(), "error spawning child process");
/// assert_eq!(start.cause().message(), "no such program");
/// ```
impl From<io::Error> for SerializableError {
    fn from(error: io::Error) -> Self {
        SerializableError::new(&error)
    }
}

/// The same for an error that is shared.
impl From<Arc<io::Error>> for SerializableError {
    fn from(error: Arc<io::Error>) -> Self {
        SerializableError::new(error.as_ref())
    }
}
