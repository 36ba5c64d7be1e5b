// Made by tools/erase from crates/test_report_events/src/line.rt. Do not edit.
//! Parses a line of a test run.

use crate::events::content::Content;
use crate::events::damage::damage_of;
use crate::events::event::Event;
use crate::events::members::Members;
use crate::events::plain::{line_text, plain_text};
use crate::events::program::ProgramLine;
use crate::events::started::started_test;
use crate::events::text::text_contents;
use bstr::ByteSlice;
use serde_json::Value;

/// A parsed line of a test run.
#[derive(Clone, Debug)]
pub struct Line {
    /// The print in front of the event, if there is one.
    before: Option<Content>,

    /// The event of the line.
    content: Content,

    /// The event that the rest of the line is damaged, if it is.
    damage: Option<Content>,

    /// The number of bytes at the start of the line that are no event, unless it is wholly an event.
    rest: Option<usize>,

    /// What the line says of a program or of the command, if it does.
    program: Option<ProgramLine>,
}

impl Line {
    /// Parses a line. `bytes` is the line without its line feed. It may end with a carriage return, and need not be
    /// UTF-8. A line that is no event of a harness, no heading and no failure of cargo is a print.
    ///
    /// If the whole line is not JSON, the parser starts again at the last `{ "type"` or `{"type"` in it. So
    /// it finds an event even if a test printed text at the start of the same line. Headings and failures of
    /// cargo are found in the same way at the end of a line.
    pub fn read(bytes: &[u8]) -> Line {
        if let Some(name) = started_test(bytes) {
            let content = Content::test_started(name);
            return Line {
                before: None,
                content,
                damage: None,
                rest: None,
                program: None,
            };
        }
        match value_in(bytes) {
            Some((at, value)) => value_line(bytes, at, &value),
            None => text_line(bytes),
        }
    }

    /// Returns the print that comes before the event of the line, if there is one. Text that a test or a program
    /// printed without a line feed can be in front of a line of cargo.
    pub fn before(&self) -> Option<Event<'_>> {
        self.before.as_ref().map(Content::event)
    }

    /// Returns the event of the line. It borrows its texts from the line.
    pub fn event(&self) -> Event<'_> {
        self.content.event()
    }

    /// Returns `Event::Damaged` if the text of the line that is no event says that a test, a suite or a benchmark failed.
    /// This event comes after the other events of the line.
    pub fn damage(&self) -> Option<Event<'_>> {
        self.damage.as_ref().map(Content::event)
    }

    /// Returns the number of bytes at the start of the line that are no event of a test harness: the length of the
    /// text in front of the event, or the length of the whole line if it has no event. Returns `None` if the line
    /// is wholly an event.
    pub fn rest(&self) -> Option<usize> {
        self.rest
    }

    /// Returns what the line says of a program or of the command, if it does. Its event is `Event::Other`: whether
    /// such a line counts depends on where it is read.
    pub fn program(&self) -> Option<&ProgramLine> {
        self.program.as_ref()
    }
}

/// Returns the line with this content, which is no event of a test harness, and so says nothing of a program.
fn other_line(
    bytes: &[u8],
    before: Option<Content>,
    content: Content,
    damage: Option<Content>,
) -> Line {
    Line {
        before,
        content,
        damage,
        rest: Some(bytes.len()),
        program: None,
    }
}

/// Parses bytes as JSON, and returns `None` if they are not JSON.
fn value_from(bytes: &[u8]) -> Option<Value> {
    match str::from_utf8(bytes) {
        Ok(text) => value_of_text(text),
        Err(_) => None,
    }
}

/// Parses a text as JSON, and returns `None` if it is not JSON. This is faster than to parse bytes, because the
/// parser does not check each string for UTF-8.
fn value_of_text(text: &str) -> Option<Value> {
    match serde_json::from_str::<Value>(text) {
        Ok(value) => Some(value),
        Err(_) => None,
    }
}

/// Returns the JSON value of a line, or else of the part of it that starts at its last event, and the offset at
/// which the value begins.
fn value_in(bytes: &[u8]) -> Option<(usize, Value)> {
    match value_from(bytes) {
        Some(value) => Some((0, value)),
        None => match last_object(bytes) {
            Some(at) => value_at(bytes, at),
            None => None,
        },
    }
}

/// Returns the JSON value that begins at an offset, and the offset.
fn value_at(bytes: &[u8], at: usize) -> Option<(usize, Value)> {
    match value_from(&bytes[at..]) {
        Some(value) => Some((at, value)),
        None => None,
    }
}

/// Returns the last offset at which an event starts. The harness writes a space after the brace of an
/// event, and nextest does not.
fn last_object(line: &[u8]) -> Option<usize> {
    match (line.rfind(b"{ \"type\""), line.rfind(b"{\"type\"")) {
        (Some(spaced), Some(close)) => Some(spaced.max(close)),
        (Some(spaced), None) => Some(spaced),
        (None, close) => close,
    }
}

/// Returns the line that has a JSON value from an offset on: an event, or a print if the value is no event.
fn value_line(bytes: &[u8], at: usize, value: &Value) -> Line {
    let members = Members::of(value);
    let time = members.time_in(bytes);
    match members.event_kind() {
        Some(kind) => {
            let damage = damage_of(&bytes[..at]);
            let content = members.content(time, kind);
            let program = ProgramLine::of(value);
            Line {
                before: None,
                content,
                damage,
                rest: (at > 0).then_some(at),
                program,
            }
        }
        None => print_line(bytes),
    }
}

/// Returns the line that is a print.
fn print_line(bytes: &[u8]) -> Line {
    let plain = plain_text(bytes);
    let line = line_text(bytes);
    let damage = damage_of(bytes);
    other_line(bytes, None, Content::Print { line, plain }, damage)
}

/// Returns the line that has no JSON value.
fn text_line(bytes: &[u8]) -> Line {
    let damage = damage_of(bytes);
    let (before, content) = text_contents(bytes);
    other_line(bytes, before, content, damage)
}
