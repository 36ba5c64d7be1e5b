//! The time of searches, on beginnings of panic messages without the rest.

use deodarsieve::TestOutputErrorSlice;
use std::time::{Duration, Instant};

/// Beginnings of a panic message, one a line: the name in each may go on to the quote of the next.
const OPENING: &[u8] = b"thread '\n";

/// The number of copies of a beginning.
const COUNT: usize = 1_000_000;

/// The size of the large input as a multiple of the small one.
const SHARE: usize = 8;

/// Returns the start of the slice of standard error.
fn start_of(stderr: &[u8]) -> Option<usize> {
    let found = TestOutputErrorSlice::heuristic_extract(None, Some(stderr))?;
    found.stderr_subslice().map(|part| part.start)
}

/// Returns the time of a search in copies of a beginning before a last line. The slice must begin at that line if
/// `is_found`.
fn time_of(count: usize, last: &[u8], is_found: bool) -> Duration {
    let stderr = [&OPENING.repeat(count), last].concat();
    let wanted = is_found.then_some(count * OPENING.len());
    let start = Instant::now();
    assert_eq!(start_of(&stderr), wanted);
    start.elapsed()
}

/// Asserts that the time grows with the size of the input, and not with its square. The limit is three times as high as
/// needed. On a busy machine a single pair of times says little.
fn assert_linear(last: &[u8], is_found: bool) {
    let mut pairs = Vec::new();
    let is_linear = (0..5).any(|_| {
        let small = time_of(COUNT / SHARE, last, is_found);
        let large = time_of(COUNT, last, is_found);
        pairs.push((small, large));
        large <= small * 3 * SHARE as u32
    });
    assert!(is_linear, "{pairs:?}");
}

#[test]
fn openings_alone() {
    assert_linear(b"", false);
}

#[test]
fn openings_before_a_line_that_is_no_head() {
    assert_linear(b"the worker panicked at start\n", false);
}

#[test]
fn openings_before_a_head() {
    assert_linear(b"thread 'a' panicked at src/lib.rs:1:1:\n", true);
}
