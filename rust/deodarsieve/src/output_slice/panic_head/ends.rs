// Made by tools/erase from crates/output_slice/src/panic_head/ends.rt. Do not edit.
//! The ends of texts, tails and heads.

use crate::output_slice::byte_source::ByteSource;
use crate::output_slice::panic_head::characters::{digits_end, is_utf8_between};
use crate::output_slice::panic_head::quotes::opens;

/// Returns the end of `text` if it begins at `at`.
fn after_text<S: ByteSource>(source: &mut S, at: usize, text: &[u8]) -> Option<usize> {
    let end = source.len();
    if end - at < text.len() {
        return None;
    }
    for (i, byte) in text.iter().enumerate() {
        if source.byte(at + i) != *byte {
            return None;
        }
    }
    Some(at + text.len())
}

/// Returns the end of the tail that begins at `at`: the text of a head after its name.
fn tail_end<S: ByteSource>(source: &mut S, at: usize) -> Option<usize> {
    let Some(space) = after_text(source, at, b" ") else {
        return None;
    };
    let Some(number) = after_text(source, space, b"(") else {
        return after_text(source, space, b"panicked at ");
    };
    let close = digits_end(source, number);
    if close == number {
        return None;
    }
    after_text(source, close, b") panicked at ")
}

/// Returns the end of the head whose name is between the quotes at `quote` and `close`.
fn named_head_end<S: ByteSource>(source: &mut S, quote: usize, close: usize) -> Option<usize> {
    if quote + 1 == close {
        return None;
    }
    // The tail comes first, so a name is read only if a tail follows it.
    let stop = tail_end(source, close + 1)?;
    if !is_utf8_between(source, quote + 1, close) {
        return None;
    }
    Some(stop)
}

/// Returns the end of the head whose name begins after `quote`, if there is one and it starts at or
/// after `place`. The next quote is at `close`.
pub(crate) fn opened_head_end<S: ByteSource>(
    source: &mut S,
    place: usize,
    quote: usize,
    close: Option<usize>,
) -> Option<usize> {
    let close = close?;
    if !opens(source, place, quote) {
        return None;
    }
    named_head_end(source, quote, close)
}
