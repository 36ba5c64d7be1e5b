// Made by tools/erase from crates/report_text/src/shown.rt. Do not edit.
//! How a text of any origin is written.

use crate::report_text::line::{
    Front, Line, Mark, is_hidden, line_after, line_inside, push_escape,
};
use crate::report_text::sequence::style_len;

/// How a text is written.
#[derive(Clone, Copy)]
pub struct Rules {
    /// Nothing is a command or a marker.
    pub for_terminal: bool,
    /// Tabs and line feeds are escapes.
    pub one_line: bool,
    /// Sequences of the text that set styles are written as they are.
    pub keeps_colours: bool,
}

/// Returns true if a character is written as an escape.
fn escapes(one_line: bool, line: Line, c: char) -> bool {
    match c {
        '\t' | '\n' => one_line,
        ':' => matches!(line.front, Front::Colon),
        '[' => matches!(line.mark, Mark::Hashes),
        _ => is_hidden(c),
    }
}

/// Appends a character or its escape, and returns what is known after it.
fn push_char(text: &mut String, rules: Rules, line: Line, c: char) -> Line {
    if escapes(rules.one_line, line, c) {
        push_escape(text, c);
        line_inside()
    } else {
        text.push(c);
        line_after(rules.for_terminal, line, c)
    }
}

/// Returns true for a byte that is written as it is in a line that has begun.
fn is_plain(byte: u8) -> bool {
    matches!(byte, b' '..=b'"' | b'$'..=b'~')
}

/// Returns true if all bytes are written as they are in a line that has begun. Looks at all of them, since a loop that
/// does not end early is faster.
fn all_plain(bytes: &[u8]) -> bool {
    let mut all = true;
    for byte in bytes {
        all &= is_plain(*byte);
    }
    all
}

/// Returns the number of bytes at the front of a text that are written as they are in a line that has begun.
fn plain_len(bytes: &[u8]) -> usize {
    let mut n: usize = 0;
    while bytes.len() - n >= 16 && all_plain(&bytes[n..n + 16]) {
        n += 16;
    }
    while n < bytes.len() && is_plain(bytes[n]) {
        n += 1;
    }
    n
}

/// Returns the number of spaces at the front of a text.
fn spaces_len(bytes: &[u8]) -> usize {
    for (i, byte) in bytes.iter().enumerate() {
        if *byte != b' ' {
            return i;
        }
    }
    bytes.len()
}

/// Returns the number of bytes at the front of a text that are written as they are and change nothing of what is known.
fn stays_len(line: Line, bytes: &[u8]) -> usize {
    match (line.front, line.mark) {
        (Front::Inside, Mark::Nothing) => plain_len(bytes),
        (Front::White, Mark::Nothing) => spaces_len(bytes),
        _ => 0,
    }
}

/// Returns the number of bytes after a character of a sequence that is written as it is, or 0.
fn kept_len(rules: Rules, c: char, text: &str) -> usize {
    if rules.keeps_colours && c == '\u{1b}' {
        style_len(text)
    } else {
        0
    }
}

/// Appends a text of any origin. Returns what is known after it, and true if it had sequences that set styles.
pub(crate) fn push_shown(
    text: &mut String,
    rules: Rules,
    start: Line,
    shown: &str,
) -> (Line, bool) {
    let mut line = start;
    let mut has_style = false;
    let mut rest = shown.chars();
    while let Some(c) = rest.next() {
        let tail = rest.as_str();
        let kept = kept_len(rules, c, tail);
        if kept == 0 {
            line = push_char(text, rules, line, c);
            let n = stays_len(line, tail.as_bytes());
            text.push_str(&tail[..n]);
            rest = tail[n..].chars();
        } else {
            text.push(c);
            text.push_str(&tail[..kept]);
            rest = tail[kept..].chars();
            has_style = true;
        }
    }
    (line, has_style)
}
