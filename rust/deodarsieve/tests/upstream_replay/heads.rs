//! The taken heads of output.
//!
//! A case is `OUTPUT START-STOP START-STOP ..`: bytes in hexadecimal, or `-` for none, and the
//! taken heads in order. The last of them is compared with the result of the counted search and of
//! the search from the end.

use crate::upstream_replay::hexadecimal::bytes_in;
use deodarsieve::counted::{CountedBytes, HeadSpan, last_head, last_panic_head};

/// Returns the head that a word names.
fn head_in(word: &str) -> Option<HeadSpan> {
    let (start, stop) = word.split_once('-')?;
    Some(HeadSpan {
        start: start.parse().ok()?,
        stop: stop.parse().ok()?,
    })
}

/// Returns true if the crates have the result of a case, or `None` if the text is not a case.
pub fn agrees(case: &str) -> Option<bool> {
    let mut words = case.split(' ');
    let output = bytes_in(words.next()?)?;
    let heads: Vec<HeadSpan> = words.map(head_in).collect::<Option<_>>()?;
    let last = heads.last().copied();
    let counted = last_panic_head(&mut CountedBytes::new(&output));
    Some(counted == last && last_head(&output) == last)
}
