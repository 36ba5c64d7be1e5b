//! The lines of a text.

use crate::report::colours::{is_blank, without_colours};
use std::borrow::Cow;

/// How many lines of an output are shown if nothing in it explains a failure.
const SHOWN_LINES: usize = 10;

/// Returns the first line of a text, without the carriage return at its end, and what follows its line feed.
pub(crate) fn first_line(text: &str) -> (&str, &str) {
    let (line, rest) = text.split_once('\n').unwrap_or((text, ""));
    (without_return(line), rest)
}

/// Returns a line without the carriage return at its end.
pub(crate) fn without_return(line: &str) -> &str {
    line.strip_suffix('\r').unwrap_or(line)
}

/// Returns a text without the carriage returns that are right before a line feed.
pub(crate) fn without_returns(text: &str) -> Cow<'_, str> {
    if text.contains("\r\n") {
        text.replace("\r\n", "\n").into()
    } else {
        text.into()
    }
}

/// Returns the lines of a text that are not blank.
fn written(text: &str) -> impl DoubleEndedIterator<Item = &str> {
    text.split('\n').filter(|line| !is_blank(line))
}

/// Returns the number of lines that are not blank.
pub(crate) fn written_count(text: &str) -> usize {
    written(text).count()
}

/// Returns the last line that is not blank, or an empty text if all lines are blank.
pub(crate) fn last_written(text: &str) -> &str {
    without_return(written(text).next_back().unwrap_or(""))
}

/// Returns ten lines of a text that are not blank: those from the first error of the compiler on or, if there is
/// none, the last ten. Returns `None` if all lines are blank.
pub(crate) fn ten_written(text: &str) -> Option<String> {
    let count = written_count(text);
    if count == 0 {
        return None;
    }
    let skipped = written(text)
        .position(is_compiler_error)
        .unwrap_or(count.saturating_sub(SHOWN_LINES));
    let lines: Vec<&str> = written(text).skip(skipped).take(SHOWN_LINES).collect();
    Some(without_return(&lines.join("\n")).to_string())
}

/// Returns true if the compiler reports an error in a line.
fn is_compiler_error(line: &str) -> bool {
    let line = without_colours(line);
    line.starts_with("error:") || line.starts_with("error[")
}
