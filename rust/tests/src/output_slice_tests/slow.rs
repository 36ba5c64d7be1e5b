//! Slow functions that follow the rules to the letter.

use deodarsieve::counted::{HeadSpan, is_decimal_digit};
use std::str;

/// Returns the end of `text` if it is at `at`.
fn end_of(bytes: &[u8], at: usize, text: &[u8]) -> Option<usize> {
    if bytes.len() < at || bytes.len() - at < text.len() {
        return None;
    }
    for i in 0..text.len() {
        if bytes[at + i] != text[i] {
            return None;
        }
    }
    Some(at + text.len())
}

/// Returns true if the bytes are one or more digits: `0` to `9`, or characters outside ASCII of the
/// category Nd.
fn is_number(bytes: &[u8]) -> bool {
    match str::from_utf8(bytes) {
        Err(_) => false,
        Ok(text) => !text.is_empty() && text.chars().all(is_digit),
    }
}

fn is_digit(c: char) -> bool {
    if c.is_ascii() {
        c.is_ascii_digit()
    } else {
        is_decimal_digit(c)
    }
}

/// Returns the end of the tail that begins at `at`.
fn tail_end(bytes: &[u8], at: usize) -> Option<usize> {
    if let Some(stop) = end_of(bytes, at, b" panicked at ") {
        return Some(stop);
    }
    let from = end_of(bytes, at, b" (")?;
    for close in from..bytes.len() {
        if bytes[close] == b')' {
            if !is_number(&bytes[from..close]) {
                return None;
            }
            return end_of(bytes, close, b") panicked at ");
        }
    }
    None
}

/// Returns true if the bytes are a name: UTF-8 that is not empty.
fn is_name(bytes: &[u8]) -> bool {
    !bytes.is_empty() && str::from_utf8(bytes).is_ok()
}

/// Returns the end of the head that begins at `start`.
fn head_end(bytes: &[u8], start: usize) -> Option<usize> {
    if start > 0 && bytes[start - 1] != b'\n' {
        return None;
    }
    let from = end_of(bytes, start, b"thread '")?;
    for quote in from..bytes.len() {
        if bytes[quote] == b'\'' {
            if !is_name(&bytes[from..quote]) {
                return None;
            }
            return tail_end(bytes, quote + 1);
        }
    }
    None
}

/// Lists all heads in the order of their starts.
pub(crate) fn list_heads(bytes: &[u8], heads: &mut Vec<HeadSpan>) {
    heads.clear();
    for start in 0..bytes.len() {
        if let Some(stop) = head_end(bytes, start) {
            heads.push(HeadSpan { start, stop });
        }
    }
}

/// Lists the taken ones of the heads, which are in the order of their starts. A head is taken if no
/// taken head that starts before it ends after its start.
pub(crate) fn list_taken(heads: &[HeadSpan], taken: &mut Vec<HeadSpan>) {
    taken.clear();
    for head in heads {
        if taken
            .iter()
            .all(|other| other.start >= head.start || other.stop <= head.start)
        {
            taken.push(*head);
        }
    }
}

/// Returns the start of the panic slice whose head begins after `front`. Every division of `front`
/// is tried.
pub(crate) fn widened(front: &[u8]) -> usize {
    for at in 0..front.len() {
        if let Some(from) = end_of(front, at, b"\nError:") {
            for stop in from..front.len() + 1 {
                if is_error_line(front, from, stop) {
                    return at + 1;
                }
            }
        }
    }
    front.len()
}

/// Returns true if the bytes from `from` to `stop` have no line feed and do not end with a carriage
/// return, and only line breaks follow them.
fn is_error_line(front: &[u8], from: usize, stop: usize) -> bool {
    let (Some(line), Some(ends)) = (front.get(from..stop), front.get(stop..)) else {
        return false;
    };
    !line.contains(&b'\n')
        && line.last() != Some(&b'\r')
        && ends.iter().all(|byte| *byte == b'\n' || *byte == b'\r')
}
