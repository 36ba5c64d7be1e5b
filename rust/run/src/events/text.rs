// Made by tools/erase from crates/test_report_events/src/text.rt. Do not edit.
//! Lines without JSON: headings, failures of cargo and prints.

use crate::events::cargo::{CargoLine, cargo_failure, cargo_line, heading_of};
use crate::events::content::Content;
use crate::events::plain::{line_text, plain_text};

/// A heading or a failure at the end of a text, and the text in front of it.
#[derive(Clone, Copy, Debug)]
struct CargoEnd<'a> {
    front: &'a str,
    text: &'a str,
    says: CargoLine<'a>,
}

/// Returns the content of a line without JSON, and before it the content of the text in front of a heading or a
/// failure in the same line, if there is such text.
pub(crate) fn text_contents(line: &[u8]) -> (Option<Content>, Content) {
    let plain = plain_text(line);
    let shown = line_text(line);
    match cargo_contents(shown.as_str(), plain.as_str()) {
        Some(contents) => contents,
        None => (None, Content::Print { line: shown, plain }),
    }
}

/// Returns the content of a line that is a heading or a failure or ends with one, as [`text_contents`] does.
fn cargo_contents(shown: &str, plain: &str) -> Option<(Option<Content>, Content)> {
    let text = without_spaces(plain);
    match cargo_line(text) {
        Some(says) => Some((None, Content::of_cargo(says, shown, text))),
        None => match cargo_end(plain) {
            Some(end) => Some(end_contents(end)),
            None => None,
        },
    }
}

/// Returns the contents of a line that ends with a heading or a failure: the print in front of it, and its event.
fn end_contents(end: CargoEnd<'_>) -> (Option<Content>, Content) {
    let before = Content::print(end.front, end.front);
    let content = Content::of_cargo(end.says, end.text, end.text);
    (Some(before), content)
}

/// Returns a text without the spaces at its start.
fn without_spaces(text: &str) -> &str {
    text.trim_start_matches(' ')
}

/// Returns the heading or else the failure at the end of a text, or `None` if the text ends with neither.
fn cargo_end(plain: &str) -> Option<CargoEnd<'_>> {
    match heading_end(plain) {
        Some(end) => Some(end),
        None => failure_end(plain),
    }
}

/// Returns the heading at the end of a text, or `None` if the text does not end with one. It begins at the last
/// place at which a heading begins, with the spaces that cargo aligns it with.
fn heading_end(plain: &str) -> Option<CargoEnd<'_>> {
    let at = last_heading(plain)?;
    let text = &plain[at..];
    let heading = heading_of(without_spaces(text))?;
    Some(CargoEnd {
        front: &plain[..at],
        text,
        says: CargoLine::Heading(heading),
    })
}

/// Returns the last offset at which a heading begins.
fn last_heading(plain: &str) -> Option<usize> {
    match (plain.rfind("     Running "), plain.rfind("   Doc-tests ")) {
        (Some(running), Some(doc_tests)) => Some(running.max(doc_tests)),
        (Some(running), None) => Some(running),
        (None, doc_tests) => doc_tests,
    }
}

/// Returns the failure at the end of a text, or `None` if the text does not end with one. It begins at the last
/// `error: `.
fn failure_end(plain: &str) -> Option<CargoEnd<'_>> {
    let at = plain.rfind("error: ")?;
    let text = &plain[at..];
    let failure = cargo_failure(text)?;
    Some(CargoEnd {
        front: &plain[..at],
        text,
        says: CargoLine::Failure(failure),
    })
}
