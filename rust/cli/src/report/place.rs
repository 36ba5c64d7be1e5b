//! The place of a failure in the sources.

use crate::report::explanation::Found;
use crate::report::failure::crash_of;
use crate::report::lines::{first_line, without_return};
use crate::report::short::other_thread;
use crate::report::words::shown_name;
use deodarsieve_run::{Failure, TestNote};
use std::fmt;

/// A place in the sources.
#[derive(Clone, Copy, Debug, PartialEq, Eq)]
pub(crate) struct Place<'a> {
    /// The file.
    pub(crate) file: &'a str,

    /// The number of the line, in decimal digits.
    pub(crate) line: &'a str,

    /// The number of the column, in decimal digits, if it is known.
    pub(crate) column: Option<&'a str>,
}

impl fmt::Display for Place<'_> {
    fn fmt(&self, f: &mut fmt::Formatter<'_>) -> fmt::Result {
        write!(f, "{}:{}", self.file, self.line)?;
        self.column.map_or(Ok(()), |column| write!(f, ":{column}"))
    }
}

impl<'a> Place<'a> {
    /// Returns the place of a failure, or `None` if it is not known. It is the place in the name of a documentation
    /// test, or else the one that a panic in the output names, or else the one at the end of the message. A place outside
    /// of the repository does not count. `message` is the message without colours, and `found` what is found in the output.
    pub(crate) fn of(
        test: &'a TestNote,
        failure: &Failure,
        message: Option<&'a str>,
        found: &Found<'a>,
    ) -> Option<Place<'a>> {
        let ours = |place: &Place| is_ours(place.file);
        Place::documented(test)
            .or_else(|| of_panic(failure, found).filter(ours))
            .or_else(|| of_message(message?).filter(ours))
    }

    /// Returns the place in the name of a documentation test, `FILE - ITEM (line N)` or `FILE - (line N)`, or `None` for
    /// another test.
    pub(crate) fn documented(test: &'a TestNote) -> Option<Place<'a>> {
        let (file, rest) = shown_name(test).split_once(" - ")?;
        let (item, line) = rest.strip_suffix(')')?.rsplit_once("(line ")?;
        let is_item = item.is_empty() || item.len() > 1 && item.ends_with(' ');
        let is_place = !file.is_empty() && are_digits(line) && is_item && is_ours(file);
        is_place.then_some(Place {
            file,
            line,
            column: None,
        })
    }

    /// Returns true if this is the place of a panic of a documentation test, given the end of the head. So it is unless
    /// the head names another file of the repository: rustdoc compiles a documentation test in a temporary file, and
    /// counts its lines from the start of the test.
    pub(crate) fn is_for(self, head: &str) -> bool {
        head.strip_suffix(':')
            .and_then(parsed)
            .is_some_and(|place| place.file == self.file || !is_ours(place.file))
    }
}

/// Returns true if a path is of a file of the repository, as far as its text says: it is not absolute, and no
/// component is `..` or the name of a folder in which rustdoc has its temporary files.
fn is_ours(path: &str) -> bool {
    let is_slash = |c| c == '/' || c == '\\';
    let has_drive =
        path.starts_with(|c: char| c.is_ascii_alphabetic()) && path[1..].starts_with(':');
    let is_outside = |part: &str| part == ".." || part.starts_with("rustdoctest");
    !path.starts_with(is_slash) && !has_drive && !path.split(is_slash).any(is_outside)
}

/// Returns the place that the head of a panic names. This is the first panic if the test crashed or if it is of another
/// thread, or else the last panic.
fn of_panic<'a>(failure: &Failure, found: &Found<'a>) -> Option<Place<'a>> {
    let head = match crash_of(failure) {
        Some(_) => found.first?,
        None => other_thread(found).or(found.last)?,
    };
    let (line, _) = first_line(&found.output[head.stop..]);
    parsed(line.strip_suffix(':')?)
}

/// Returns the place at the end of a message: what follows ` at ` in its last line.
fn of_message(message: &str) -> Option<Place<'_>> {
    let message = message.strip_suffix('\n').unwrap_or(message);
    let (_, line) = message.rsplit_once('\n').unwrap_or(("", message));
    let (_, place) = without_return(line).rsplit_once(" at ")?;
    parsed(place)
}

/// Parses `FILE:LINE:COLUMN`. Returns `None` for another text.
fn parsed(text: &str) -> Option<Place<'_>> {
    let (rest, column) = text.rsplit_once(':')?;
    let (file, line) = rest.rsplit_once(':')?;
    let is_place = !file.is_empty() && are_digits(line) && are_digits(column);
    is_place.then_some(Place {
        file,
        line,
        column: Some(column),
    })
}

/// Returns true for a number in decimal digits.
fn are_digits(text: &str) -> bool {
    !text.is_empty() && text.bytes().all(|byte| byte.is_ascii_digit())
}
