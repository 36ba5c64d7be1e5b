// Made by tools/erase from crates/test_report_events/src/plain.rt. Do not edit.
//! Lines without escapes.

use bstr::ByteSlice;

/// Returns a line without the carriage return at its end.
fn without_return(line: &[u8]) -> &[u8] {
    if !line.is_empty() && line[line.len() - 1] == b'\r' {
        &line[..line.len() - 1]
    } else {
        line
    }
}

/// Returns the text of a line, without the carriage return at its end. Bytes that are not UTF-8 become
/// U+FFFD.
pub(crate) fn line_text(line: &[u8]) -> String {
    String::from_utf8_lossy(without_return(line)).into_owned()
}

/// Returns the offset of the first byte that is not a space.
fn spaces_end(text: &[u8]) -> Option<usize> {
    text.iter().position(|byte| *byte != b' ')
}

/// Returns a text without the spaces at its start.
pub(crate) fn without_spaces(text: &[u8]) -> &[u8] {
    match spaces_end(text) {
        Some(front) => &text[front..],
        None => &text[text.len()..],
    }
}

/// Returns true for a byte of an escape's parameters.
fn is_parameter(byte: u8) -> bool {
    (b'0'..=b'?').contains(&byte)
}

/// Returns true for the last byte of an escape.
fn is_final(byte: u8) -> bool {
    (b'@'..=b'~').contains(&byte)
}

/// Returns the offset of the first byte that is not part of an escape's parameters.
fn parameters_end(text: &[u8]) -> Option<usize> {
    text.iter().position(|byte| !is_parameter(*byte))
}

/// Returns the length of the parameters at the start of a text. Returns `None` if the last byte of an escape
/// does not follow them.
fn parameters_size(text: &[u8]) -> Option<usize> {
    match parameters_end(text) {
        Some(end) => {
            if is_final(text[end]) {
                Some(end)
            } else {
                None
            }
        }
        None => None,
    }
}

/// Returns the length of the escape at the start of a text: `ESC [`, then parameters, then a last byte. Returns
/// `None` if the text does not start with an escape.
fn escape_size(text: &[u8]) -> Option<usize> {
    match text {
        [0x1b, b'[', parameters @ ..] => match parameters_size(parameters) {
            Some(size) => Some(size + 3),
            None => None,
        },
        _ => None,
    }
}

/// Returns a line without escapes.
fn without_escapes(line: &[u8]) -> Vec<u8> {
    let mut kept = Vec::new();
    let mut at = 0;
    while at < line.len() {
        match escape_size(&line[at..]) {
            Some(size) => at += size,
            None => {
                kept.push(line[at]);
                at += 1;
            }
        }
    }
    kept
}

/// Returns the text after the last carriage return. A terminal writes it over the text before.
fn after_return(text: &[u8]) -> &[u8] {
    match text.rfind_byte(b'\r') {
        Some(at) => &text[at + 1..],
        None => text,
    }
}

/// Returns the text of a line as a terminal shows it: without the carriage return at its end, without escapes,
/// and without the text that a carriage return writes over. Bytes that are not UTF-8 become U+FFFD. Lines of
/// cargo are recognized in this form.
pub(crate) fn plain_text(line: &[u8]) -> String {
    let kept = without_escapes(without_return(line));
    String::from_utf8_lossy(after_return(kept.as_slice())).into_owned()
}
