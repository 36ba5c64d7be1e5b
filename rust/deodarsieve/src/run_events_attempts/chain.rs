// Made by tools/erase from crates/run_events_attempts/src/chain.rt. Do not edit.
//! Errors with their causes, kept as texts.

use alloc::boxed::Box;
use alloc::string::String;
use alloc::vec::Vec;
use core::fmt;

#[cfg(feature = "serde_json")]
mod json;

#[cfg(feature = "serde_json")]
pub use crate::run_events_attempts::chain::json::FromValueError;

/// An error as its message and the messages of its causes. It can be stored, and outlives the error
/// that it was made from.
///
/// It is displayed as its message, without the causes. Two are equal if their messages and all
/// messages of their causes are equal. It is dropped and compared in loops, so a long chain needs
/// no stack.
///
/// ```
/// # #[cfg(feature = "serde_json")]
/// # {
/// use deodarsieve::SerializableError;
///
/// let error = SerializableError::from_message_and_causes("no file".into(), vec!["no disk".into()]);
/// let text = error.to_value().to_string();
/// assert_eq!(text, r#"{"causes":["no disk"],"message":"no file"}"#);
/// # }
/// ```
pub struct SerializableError {
    message: String,
    source: Option<Box<SerializableError>>,
}

impl Drop for SerializableError {
    fn drop(&mut self) {
        let mut source = self.source.take();
        while let Some(mut cause) = source {
            source = cause.source.take();
        }
    }
}

impl SerializableError {
    /// Returns an error with this message and these causes, the nearest cause first.
    #[must_use]
    pub fn from_message_and_causes(message: String, mut causes: Vec<String>) -> Self {
        let mut source: Option<Box<SerializableError>> = None;
        'link: while let Some(message) = causes.pop() {
            source = Some(Box::new(SerializableError { message, source }));
        }
        SerializableError { message, source }
    }

    /// Returns the message, without the causes.
    #[must_use]
    pub fn message(&self) -> &str {
        self.message.as_str()
    }

    /// Returns the nearest cause, with its own causes, or `None` if there is no cause.
    #[must_use]
    pub fn cause(&self) -> Option<&SerializableError> {
        self.source.as_deref()
    }

    /// Returns an iterator over the causes, the nearest first. Each has its own causes.
    #[must_use]
    pub fn sources(&self) -> SerializableErrorSources<'_> {
        SerializableErrorSources {
            current: self.cause(),
        }
    }
}

impl fmt::Display for SerializableError {
    fn fmt(&self, f: &mut fmt::Formatter<'_>) -> fmt::Result {
        f.write_str(self.message())
    }
}

impl PartialEq for SerializableError {
    fn eq(&self, other: &SerializableError) -> bool {
        let mut left = self;
        let mut right = other;
        'compare: loop {
            if left.message() != right.message() {
                return false;
            }
            match (left.cause(), right.cause()) {
                (None, None) => return true,
                (Some(next_left), Some(next_right)) => {
                    left = next_left;
                    right = next_right;
                }
                _ => return false,
            }
        }
    }
}

impl Eq for SerializableError {}

/// An iterator over the causes of an error, the nearest first.
#[derive(Clone, Debug)]
pub struct SerializableErrorSources<'a> {
    current: Option<&'a SerializableError>,
}

impl<'a> Iterator for SerializableErrorSources<'a> {
    type Item = &'a SerializableError;

    fn next(&mut self) -> Option<&'a SerializableError> {
        let error = self.current?;
        self.current = error.cause();
        Some(error)
    }
}
