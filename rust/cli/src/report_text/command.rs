// Made by tools/erase from crates/report_text/src/command.rt. Do not edit.
//! The commands of GitHub's runner.

use crate::report_text::line::{Front, Mark, is_hidden, mark_after, push_escape};

/// How serious the finding of a command is.
#[derive(Clone, Copy)]
pub enum Kind {
    Error,
    Warning,
    Notice,
}

/// The name of a property of a command.
#[derive(Clone, Copy)]
pub enum PropertyName {
    File,
    Line,
    Column,
    Title,
}

/// A property of a command.
#[derive(Clone, Copy)]
pub struct Property<'a> {
    pub name: PropertyName,
    pub value: &'a str,
}

/// Returns the name of a kind of commands.
fn kind_name(kind: Kind) -> &'static str {
    match kind {
        Kind::Error => "error",
        Kind::Warning => "warning",
        Kind::Notice => "notice",
    }
}

/// Returns the name of a property.
fn property_name(name: PropertyName) -> &'static str {
    match name {
        PropertyName::File => "file",
        PropertyName::Line => "line",
        PropertyName::Column => "col",
        PropertyName::Title => "title",
    }
}

/// Returns true for a character that is not written as it is in a command.
fn is_encoded(c: char, in_property: bool, mark: Mark) -> bool {
    match c {
        '%' | '\r' | '\n' => true,
        ':' | ',' => in_property,
        '[' => matches!(mark, Mark::Hashes),
        _ => is_hidden(c),
    }
}

/// Appends what replaces a character in a command.
fn push_replacement(text: &mut String, c: char) {
    match c {
        '%' => text.push_str("%25"),
        '\r' => text.push_str("%0D"),
        '\n' => text.push_str("%0A"),
        ':' => text.push_str("%3A"),
        ',' => text.push_str("%2C"),
        _ => push_escape(text, c),
    }
}

/// Appends a character of a command, and returns what is at the end of the text after it.
fn push_encoded_char(text: &mut String, c: char, in_property: bool, mark: Mark) -> Mark {
    if is_encoded(c, in_property, mark) {
        push_replacement(text, c);
        Mark::Nothing
    } else {
        text.push(c);
        mark_after(false, mark, c)
    }
}

/// Appends a property's value or a message of a command.
fn push_encoded(text: &mut String, value: &str, in_property: bool) {
    let mut mark = Mark::Nothing;
    for c in value.chars() {
        mark = push_encoded_char(text, c, in_property, mark);
    }
}

/// Appends a property.
fn push_property(text: &mut String, property: &Property) {
    text.push_str(property_name(property.name));
    text.push('=');
    push_encoded(text, property.value, true);
}

/// Returns what is before a property.
fn separator(first: bool) -> char {
    if first { ' ' } else { ',' }
}

/// Appends a space or a comma and a property, for each of these.
fn push_properties(text: &mut String, properties: &[Property]) {
    let mut first = true;
    for property in properties {
        text.push(separator(first));
        push_property(text, property);
        first = false;
    }
}

/// Appends the line of a command.
pub(crate) fn push_command_line(
    text: &mut String,
    kind: Kind,
    properties: &[Property],
    message: &str,
) {
    text.push_str("::");
    text.push_str(kind_name(kind));
    push_properties(text, properties);
    text.push_str("::");
    push_encoded(text, message, false);
    text.push('\n');
}

/// Ends a line that has begun, also if sequences alone are in it: a CI system looks for commands at the start of a line.
pub(crate) fn push_line_end(text: &mut String, front: Front) {
    match front {
        Front::White => {
            if !text.is_empty() && !text.ends_with('\n') {
                text.push('\n');
            }
        }
        _ => text.push('\n'),
    }
}
