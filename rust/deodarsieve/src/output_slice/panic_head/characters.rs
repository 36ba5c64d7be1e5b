// Made by tools/erase from crates/output_slice/src/panic_head/characters.rt. Do not edit.
//! The characters of names and of numbers.

use crate::decimal_digits::is_decimal_digit;
use crate::output_slice::byte_source::ByteSource;

/// Returns the UTF-8 character at `at` and its size in bytes, or `None` if none ends by `stop`.
#[inline]
fn char_at<S: ByteSource>(source: &mut S, at: usize, stop: usize) -> Option<(char, usize)> {
    let first = source.byte(at);
    let size = (stop - at).min(4);
    if first < 0x80 {
        return Some((first as char, 1));
    }
    let mut buffer = [first, 0, 0, 0];
    for i in 1..size {
        buffer[i] = source.byte(at + i);
        let (found, width) = bstr::decode_utf8(&buffer[..i + 1]);
        if let Some(c) = found {
            return Some((c, width));
        }
    }
    None
}

/// Returns true if the bytes from `from` to `to` are UTF-8.
pub(crate) fn is_utf8_between<S: ByteSource>(source: &mut S, from: usize, to: usize) -> bool {
    let mut at = from;
    while at < to {
        match char_at(source, at, to) {
            Some((_, size)) => at += size,
            None => return false,
        }
    }
    true
}

/// Returns true if `c` is one of `0` to `9`, or a decimal digit outside ASCII.
fn is_digit(c: char) -> bool {
    c.is_ascii_digit() || (c >= '\u{80}' && is_decimal_digit(c))
}

/// Returns the end of the digits that begin at `from`.
pub(crate) fn digits_end<S: ByteSource>(source: &mut S, from: usize) -> usize {
    let end = source.len();
    let mut at = from;
    while at < end {
        match char_at(source, at, end) {
            Some((c, size)) => {
                if !is_digit(c) {
                    return at;
                }
                at += size;
            }
            None => return at,
        }
    }
    at
}
