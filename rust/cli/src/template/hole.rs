// Made by tools/erase from crates/template/src/hole.rt. Do not edit.
//! The holes of a template, and how values are written there.

use crate::template::plain::push_plain;
use crate::template::shown::{allowed, is_escaped, push_escape};

/// The kind of a hole: how a value is written there.
#[derive(Clone, Copy)]
pub enum Hole {
    /// A text between tags of HTML or XML.
    Text,

    /// The value of an attribute of HTML or XML.
    Attribute,

    /// A text of Markdown outside of `<pre>`.
    Plain,
}

/// Appends a value.
pub(crate) fn push_hole(text: &mut String, kind: Hole, value: &str) {
    match kind {
        Hole::Text => push_markup(text, false, value),
        Hole::Attribute => push_markup(text, true, value),
        Hole::Plain => push_plain(text, value),
    }
}

/// Appends a value in a tag or between tags.
fn push_markup(text: &mut String, in_value: bool, value: &str) {
    if is_kept_value(in_value, value.as_bytes()) {
        text.push_str(value);
    } else {
        push_markup_chars(text, in_value, value);
    }
}

/// Returns true if all bytes of a value are written as they are.
fn is_kept_value(in_value: bool, value: &[u8]) -> bool {
    value.iter().all(|byte| is_kept(in_value, *byte))
}

/// Returns true for a byte that is written as it is.
fn is_kept(in_value: bool, byte: u8) -> bool {
    match byte {
        b'&' | b'<' | b'>' => false,
        b'"' | b'\t' | b'\n' => !in_value,
        _ => matches!(byte, b' '..=b'~'),
    }
}

/// Appends a value, character by character.
fn push_markup_chars(text: &mut String, in_value: bool, value: &str) {
    for c in value.chars() {
        push_markup_char(text, in_value, c);
    }
}

/// Appends a character of a value.
fn push_markup_char(text: &mut String, in_value: bool, c: char) {
    if is_escaped(c) {
        push_escape(text, c);
    } else {
        push_reference(text, in_value, allowed(c));
    }
}

/// Appends a character, as a reference if it means something to HTML and XML.
fn push_reference(text: &mut String, in_value: bool, c: char) {
    match c {
        '&' => text.push_str("&amp;"),
        '<' => text.push_str("&lt;"),
        '>' => text.push_str("&gt;"),
        '\r' => text.push_str("&#13;"),
        '"' if in_value => text.push_str("&quot;"),
        '\t' if in_value => text.push_str("&#9;"),
        '\n' if in_value => text.push_str("&#10;"),
        _ => text.push(c),
    }
}
