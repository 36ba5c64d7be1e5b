// Made by tools/erase from crates/output_slice/src/panic_head/quotes.rt. Do not edit.
//! Quotes, and the prefix before them.

use crate::output_slice::byte_source::ByteSource;

/// The size of `thread `, which is before the opening quote of a head.
pub(crate) const WORD_SIZE: usize = 7;

/// The size of `thread '`.
pub(crate) const OPENING_SIZE: usize = WORD_SIZE + 1;

/// Returns the offset of the first quote at or after `from`.
pub(crate) fn next_quote<S: ByteSource>(source: &mut S, from: usize) -> Option<usize> {
    let end = source.len();
    for at in from..end {
        if source.byte(at) == b'\'' {
            return Some(at);
        }
    }
    None
}

/// Returns true if `thread ` is before `quote`, at the start of a line and not before `place`.
#[inline]
pub(crate) fn opens<S: ByteSource>(source: &mut S, place: usize, quote: usize) -> bool {
    if quote < WORD_SIZE || quote - WORD_SIZE < place {
        return false;
    }
    let start = quote - WORD_SIZE;
    // The line start comes first, so the prefix is read only at the start of a line.
    if start > 0 && source.byte(start - 1) != b'\n' {
        return false;
    }
    for (i, byte) in b"thread ".iter().enumerate() {
        if source.byte(start + i) != *byte {
            return false;
        }
    }
    true
}
