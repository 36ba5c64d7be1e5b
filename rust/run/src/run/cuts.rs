// Made by tools/erase from crates/test_report_run/src/cuts.rt. Do not edit.
//! Lines that are cut.

/// The most bytes that a note has of a line.
const MOST_IN_NOTE: usize = 200;

/// Returns the longest start of a line that has at most `most` bytes and ends between characters.
pub(crate) fn start_of(line: &str, most: usize) -> &str {
    &line[..line.floor_char_boundary(most)]
}

/// Returns the longest start of a line that has at most 200 bytes and ends between characters.
pub(crate) fn shortened(line: &str) -> &str {
    start_of(line, MOST_IN_NOTE)
}
