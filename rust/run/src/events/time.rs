// Made by tools/erase from crates/test_report_events/src/time.rt. Do not edit.
//! The times of tests.

use crate::events::plain::without_spaces;
use bstr::ByteSlice;

/// The key of the member that holds a time.
const KEY: &[u8] = b"\"exec_time\"";

/// The most digits that a time may have before its point.
const MOST_DIGITS: usize = 9;

/// The number of digits of a second that are kept.
const KEPT_DIGITS: usize = 6;

/// The number of microseconds in a second.
const MICROSECONDS: u64 = 1_000_000;

/// Returns the time of a line in microseconds, rounded down. The time is the number of seconds after the
/// last `"exec_time":` of the line. Returns `None` if there is no such number, if it has an exponent or a
/// sign, or if it has more than nine digits before the point.
pub(crate) fn exec_time(line: &[u8]) -> Option<u64> {
    match last_key(line) {
        Some(at) => microseconds(number_text(&line[at + KEY.len() + 1..])),
        None => None,
    }
}

/// Returns the offset of the last `"exec_time"` that a colon follows.
fn last_key(line: &[u8]) -> Option<usize> {
    let mut rest = line;
    while let Some(colon) = rest.rfind_byte(b':') {
        rest = &rest[..colon];
        if rest.ends_with(KEY) {
            return Some(colon - KEY.len());
        }
    }
    None
}

/// Returns the offset of the first byte that is not part of a number.
fn number_end(text: &[u8]) -> Option<usize> {
    text.iter().position(|byte| !is_of_number(*byte))
}

/// Returns the number at the start of a text. Spaces before it are skipped.
fn number_text(text: &[u8]) -> &[u8] {
    let number = without_spaces(text);
    match number_end(number) {
        Some(end) => &number[..end],
        None => number,
    }
}

/// Returns true for a byte that may be in a number.
fn is_of_number(byte: u8) -> bool {
    byte.is_ascii_digit() || matches!(byte, b'.' | b'-' | b'+' | b'e' | b'E')
}

/// Returns the offset of the point of a number.
fn point_of(number: &[u8]) -> Option<usize> {
    number.iter().position(|byte| *byte == b'.')
}

/// Returns the digits before the point of a number, and those after it.
fn parts_of(number: &[u8]) -> (&[u8], &[u8]) {
    match point_of(number) {
        Some(at) => (&number[..at], &number[at + 1..]),
        None => (number, &number[number.len()..]),
    }
}

/// Returns true if all bytes are digits.
pub(crate) fn are_digits(bytes: &[u8]) -> bool {
    bytes.iter().all(u8::is_ascii_digit)
}

/// Parses a number of seconds, and returns whole microseconds, rounded down. Returns `None` if the text is not a
/// decimal number with digits on both sides of its point, if it has one, or if it has more than nine digits before
/// the point.
pub fn microseconds(number: &[u8]) -> Option<u64> {
    let (whole, fraction) = parts_of(number);
    if whole.is_empty() || whole.len() > MOST_DIGITS || !are_digits(whole) {
        return None;
    }
    if fraction.is_empty() && whole.len() < number.len() || !are_digits(fraction) {
        return None;
    }
    Some(digits_value(whole) * MICROSECONDS + fraction_value(fraction))
}

/// Returns the value of at most nine digits.
fn digits_value(digits: &[u8]) -> u64 {
    let mut value: u64 = 0;
    for digit in digits {
        value = value * 10 + u64::from(*digit - b'0');
    }
    value
}

/// Returns the microseconds in the digits after a point, rounded down.
fn fraction_value(digits: &[u8]) -> u64 {
    let size = digits.len().min(KEPT_DIGITS);
    digits_value(&digits[..size]) * 10_u64.pow((KEPT_DIGITS - size) as u32)
}
