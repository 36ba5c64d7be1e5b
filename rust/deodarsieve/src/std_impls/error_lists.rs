//! Hand-written methods and traits of [`ErrorList`].

use crate::run_events_attempts::attempts::ErrorSummary;
use crate::run_events_attempts::child::ErrorList;
use alloc::format;
use alloc::string::{String, ToString};
use core::error::Error;
use core::fmt::{self, Write};
use core::iter::successors;

impl<T> ErrorList<T> {
    /// Returns a list with the same description and the results of `convert` for the errors, in
    /// order.
    #[must_use]
    pub fn map<U>(self, convert: impl FnMut(T) -> U) -> ErrorList<U> {
        ErrorList {
            description: self.description,
            errors: self.errors.into_iter().map(convert).collect(),
        }
    }
}

impl<T: Error> ErrorList<T> {
    /// Returns the first line of the text of the list, without a colon at its end.
    #[must_use]
    pub fn short_message(&self) -> String {
        let text = self.to_string();
        let first_line = text.lines().next().unwrap_or_default();
        String::from(first_line.trim_end_matches(':'))
    }

    /// Returns the messages of the list in one line and in full, with all causes.
    pub(super) fn summary(&self) -> ErrorSummary {
        ErrorSummary {
            short_message: self.short_message(),
            description: text_with_causes(self),
        }
    }
}

/// One error is displayed as itself. Several are displayed with their causes, under a line with
/// their number and the description of the operation:
///
/// ```
/// use deodarsieve::{ErrorList, SerializableError};
///
/// let error = |message: &str, cause: &str| {
///     SerializableError::from_message_and_causes(message.into(), vec![cause.into()])
/// };
/// let errors = vec![error("cannot read", "closed"), error("cannot wait", "no child")];
/// let list = ErrorList::new("executing test", errors).expect("there are two errors");
/// assert_eq!(
///     list.to_string(),
///     "2 errors occurred executing test:
/// * cannot read
///     caused by:
///     - closed
/// * cannot wait
///     caused by:
///     - no child
/// "
/// );
/// ```
impl<T: Error> fmt::Display for ErrorList<T> {
    fn fmt(&self, f: &mut fmt::Formatter<'_>) -> fmt::Result {
        if let [error] = self.errors.as_slice() {
            return write!(f, "{error}");
        }
        writeln!(f, "{} errors occurred {}:", self.len(), self.description())?;
        for error in self {
            f.write_str("* ")?;
            write_with_causes(f, error, "  ")?;
            f.write_str("\n")?;
        }
        Ok(())
    }
}

/// The source of a list of one error is the source of that error. A list of several has none: its
/// text has their causes.
impl<T: Error> Error for ErrorList<T> {
    fn source(&self) -> Option<&(dyn Error + 'static)> {
        match self.errors.as_slice() {
            [error] => error.source(),
            _ => None,
        }
    }
}

/// Returns the text of an error, with each of its causes on a line of its own.
fn text_with_causes(error: &dyn Error) -> String {
    let mut text = String::new();
    write_with_causes(&mut text, error, "").expect("a string takes any text");
    text
}

/// Writes an error, and each of its causes on a line of its own, with an indent before each line except
/// the first one.
fn write_with_causes(out: &mut dyn Write, error: &dyn Error, indent: &str) -> fmt::Result {
    write_indented(out, &error.to_string(), indent)?;
    if error.source().is_some() {
        write!(out, "\n{indent}  caused by:")?;
    }
    let indent_of_cause = format!("{indent}    ");
    for cause in successors(error.source(), |&cause| cause.source()) {
        write!(out, "\n{indent}  - ")?;
        write_indented(out, &cause.to_string(), &indent_of_cause)?;
    }
    Ok(())
}

/// Writes a text with an indent before each line except the first one and empty ones.
fn write_indented(out: &mut dyn Write, text: &str, indent: &str) -> fmt::Result {
    for (number, line) in text.split_inclusive('\n').enumerate() {
        if number > 0 && line != "\n" {
            out.write_str(indent)?;
        }
        out.write_str(line)?;
    }
    Ok(())
}
