// Made by tools/erase from crates/output_slice/src/panic_head.rt. Do not edit.
//! The search for panic heads, which reads each byte through a counter.

mod characters;
pub(crate) mod ends;
pub(crate) mod quotes;

use crate::output_slice::byte_source::ByteSource;
use crate::output_slice::panic_head::ends::opened_head_end;
use crate::output_slice::panic_head::quotes::{WORD_SIZE, next_quote};

/// The span of a head, which is the front of a panic message, for example `thread 'main' panicked at `.
#[derive(Clone, Copy, Debug, PartialEq, Eq)]
pub struct HeadSpan {
    /// The offset of `thread '`.
    pub start: usize,

    /// The offset after the last space of ` panicked at `.
    pub stop: usize,
}

/// Returns the last panic head in the bytes of `source`, or `None`.
///
/// A head begins at the start of a line: `thread '`, a name, `'`, and then ` panicked at ` or
/// ` (N) panicked at ` with one or more decimal digits N. The name is one or more UTF-8 characters
/// except quotes; line feeds are allowed. Rust's default panic hook begins a message in this form,
/// and nextest-runner recognizes it by this form. Heads are matched from left to right and do not
/// overlap.
///
/// The search reads each of n bytes, and makes at most 3n + 8 reads. The count of `source` plus 8n + 8
/// must be below 2^128.
pub fn last_panic_head<S: ByteSource>(source: &mut S) -> Option<HeadSpan> {
    let mut place = 0;
    let mut last = None;
    let mut next = next_quote(source, 0);
    while let Some(quote) = next {
        let close = next_quote(source, quote + 1);
        match opened_head_end(source, place, quote, close) {
            Some(stop) => {
                last = Some(HeadSpan {
                    start: quote - WORD_SIZE,
                    stop,
                });
                place = stop;
                next = next_quote(source, stop);
            }
            None => {
                place = quote + 1;
                next = close;
            }
        }
    }
    last
}
