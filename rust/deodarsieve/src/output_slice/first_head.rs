// Made by tools/erase from crates/output_slice/src/first_head.rt. Do not edit.
//! The search for the first panic head.

use crate::output_slice::byte_source::CountedBytes;
use crate::output_slice::panic_head::HeadSpan;
use crate::output_slice::panic_head::ends::opened_head_end;
use crate::output_slice::panic_head::quotes::{WORD_SIZE, next_quote};

/// Returns the first panic head in `bytes`, or `None` if there is none. What counts as a head is the same as for
/// [`last_head`].
///
/// [`last_head`]: crate::output_slice::last_head::last_head
#[must_use]
pub fn first_head(bytes: &[u8]) -> Option<HeadSpan> {
    let mut source = CountedBytes::new(bytes);
    let mut place = 0;
    let mut next = next_quote(&mut source, 0);
    while let Some(quote) = next {
        let close = next_quote(&mut source, quote + 1);
        if let Some(stop) = opened_head_end(&mut source, place, quote, close) {
            return Some(HeadSpan {
                start: quote - WORD_SIZE,
                stop,
            });
        }
        place = quote + 1;
        next = close;
    }
    None
}
