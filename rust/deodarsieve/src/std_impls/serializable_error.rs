//! Hand-written methods and traits of [`SerializableError`]. Its causes are a linked list, so
//! everything that visits them is a loop: recursion would overflow the stack on a long chain.

use crate::run_events_attempts::chain::SerializableError;
use alloc::string::{String, ToString};
use core::error::Error;
use core::fmt;

impl SerializableError {
    /// Copies the message of `error` and the messages of its sources, the nearest first.
    ///
    /// ```
    /// use deodarsieve::SerializableError;
    ///
    /// let error = "x".parse::<u32>().expect_err("a letter is no number");
    /// assert_eq!(SerializableError::new(&error).message(), "invalid digit found in string");
    /// ```
    #[must_use]
    pub fn new(error: &dyn Error) -> Self {
        let causes = core::iter::successors(error.source(), |&cause| cause.source())
            .map(|cause| cause.to_string())
            .collect();
        SerializableError::from_message_and_causes(error.to_string(), causes)
    }
}

impl Clone for SerializableError {
    fn clone(&self) -> Self {
        SerializableError::new(self)
    }
}

/// Writes what a derived `Debug` would: each cause is inside the error that it caused. With `{:#?}`
/// the length of the text grows with the square of the number of causes, as that of a derived one.
impl fmt::Debug for SerializableError {
    fn fmt(&self, f: &mut fmt::Formatter<'_>) -> fmt::Result {
        if f.alternate() {
            write_on_lines(self, f)
        } else {
            write_on_one_line(self, f)
        }
    }
}

fn write_on_one_line(error: &SerializableError, f: &mut fmt::Formatter<'_>) -> fmt::Result {
    let message = error.message();
    write!(f, "SerializableError {{ message: {message:?}, source: ")?;
    for cause in error.sources() {
        let message = cause.message();
        write!(
            f,
            "Some(SerializableError {{ message: {message:?}, source: "
        )?;
    }
    f.write_str("None }")?;
    error.sources().try_for_each(|_| f.write_str(") }"))
}

fn write_on_lines(error: &SerializableError, f: &mut fmt::Formatter<'_>) -> fmt::Result {
    let message = error.message();
    write!(f, "SerializableError {{\n    message: {message:?},\n")?;
    let mut indent = String::new();
    for cause in error.sources() {
        let message = cause.message();
        writeln!(f, "{indent}    source: Some(")?;
        indent.push_str("        ");
        writeln!(
            f,
            "{indent}SerializableError {{\n{indent}    message: {message:?},"
        )?;
    }
    writeln!(f, "{indent}    source: None,")?;
    while let Some(outer) = indent.strip_suffix("        ") {
        writeln!(f, "{indent}}},\n{outer}    ),")?;
        indent.truncate(outer.len());
    }
    f.write_str("}")
}

impl Error for SerializableError {
    fn source(&self) -> Option<&(dyn Error + 'static)> {
        self.cause().map(|cause| cause as &dyn Error)
    }
}
