// Made by tools/erase from crates/output_slice/src/lines.rt. Do not edit.
//! Where lines begin and end.

use bstr::ByteSlice;

/// Returns the offset of the first `byte` at or after `from`.
pub(crate) fn next_byte(bytes: &[u8], byte: u8, from: usize) -> Option<usize> {
    let gap = (&bytes[from..]).find_byte(byte)?;
    Some(from + gap)
}

/// Returns the offset of the last `byte` before `end`.
pub(crate) fn last_byte(bytes: &[u8], byte: u8, end: usize) -> Option<usize> {
    (&bytes[..end]).rfind_byte(byte)
}

/// Returns true if `at` is the start of a line.
pub(crate) fn is_line_start(bytes: &[u8], at: usize) -> bool {
    at == 0 || bytes[at - 1] == b'\n'
}

/// Returns the start of the line that contains `at`.
pub(crate) fn line_start(bytes: &[u8], at: usize) -> usize {
    match last_byte(bytes, b'\n', at) {
        Some(feed) => feed + 1,
        None => 0,
    }
}

/// Returns the end of the line that contains `at`, after its line feed.
pub(crate) fn line_end(bytes: &[u8], at: usize) -> usize {
    match next_byte(bytes, b'\n', at) {
        Some(feed) => feed + 1,
        None => bytes.len(),
    }
}
