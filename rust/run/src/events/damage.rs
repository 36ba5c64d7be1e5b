// Made by tools/erase from crates/test_report_events/src/damage.rt. Do not edit.
//! Text that is no event, and says that a test, a suite or a benchmark failed.

use crate::events::content::Content;
use crate::events::plain::{line_text, without_spaces};
use bstr::ByteSlice;

/// Returns the event that a text is damaged, or `None` if it says no failure. The text is not, or not part of, an
/// event.
pub(crate) fn damage_of(text: &[u8]) -> Option<Content> {
    if says_failure(text) {
        Some(Content::Damaged(line_text(text)))
    } else {
        None
    }
}

/// Returns true if a text says that a test, a suite or a benchmark failed.
fn says_failure(text: &[u8]) -> bool {
    has_member(text, b"\"event\"", b"\"failed\"") && has_type(text)
}

/// Returns true if a text has the type of a test, a suite or a benchmark in it.
fn has_type(text: &[u8]) -> bool {
    has_member(text, b"\"type\"", b"\"test\"")
        || has_member(text, b"\"type\"", b"\"suite\"")
        || has_member(text, b"\"type\"", b"\"bench\"")
}

/// Returns true if a text has a member in it: a key, and after it a colon, which may be between spaces, and a value.
fn has_member(text: &[u8], key: &[u8], value: &[u8]) -> bool {
    let mut rest = text;
    while let Some(at) = rest.find(key) {
        if begins_value(&rest[at + key.len()..], value) {
            return true;
        }
        rest = &rest[at + 1..];
    }
    false
}

/// Returns true if a text begins with a colon, which may be between spaces, and a value.
fn begins_value(text: &[u8], value: &[u8]) -> bool {
    match without_spaces(text).strip_prefix(b":") {
        Some(after) => without_spaces(after).starts_with(value),
        None => false,
    }
}
