// Made by tools/erase from crates/test_report_run/src/longest_end.rt. Do not edit.
//! The longest end of some lines that has at most a number of bytes.

use crate::run::cuts::start_of;
use std::collections::VecDeque;

/// The most bytes that are kept of lines, with a line feed between two of them.
pub(crate) const MOST_BYTES: usize = 16_384;

/// The longest end of the lines that were added, so that all its lines together, with a line feed between two
/// of them, have at most [`MOST_BYTES`] bytes. Of a longer line its first bytes are kept.
#[derive(Clone, Debug)]
pub(crate) struct LongestEnd {
    lines: VecDeque<String>,

    /// The number of bytes of the lines, with a line feed after each.
    bytes: usize,
}

impl LongestEnd {
    /// Returns no lines.
    pub(crate) fn new() -> LongestEnd {
        LongestEnd {
            lines: VecDeque::new(),
            bytes: 0,
        }
    }

    /// Adds a line after the others, and drops as many of the first ones as must go.
    pub(crate) fn take_line(&mut self, line: &str) {
        let line = start_of(line, MOST_BYTES);
        let kept = String::from(line);
        self.make_room(line.len());
        self.lines.push_back(kept);
        self.bytes += line.len() + 1;
    }

    /// Drops as many of the first lines as must go so that a line of `size` bytes fits after them.
    fn make_room(&mut self, size: usize) {
        while self.bytes + size > MOST_BYTES {
            self.drop_first();
        }
    }

    /// Drops the first line.
    fn drop_first(&mut self) {
        if let Some(line) = self.lines.pop_front() {
            self.bytes -= line.len() + 1;
        }
    }

    /// Returns the number of lines.
    pub(crate) fn len(&self) -> usize {
        self.lines.len()
    }

    /// Returns the lines without the first `skipped`, with a line feed between two of them.
    pub(crate) fn text(&self, skipped: usize) -> String {
        let mut text = String::new();
        let mut is_first = true;
        for line in self.lines.iter().skip(skipped) {
            if !is_first {
                text.push('\n');
            }
            is_first = false;
            text.push_str(line.as_str());
        }
        text
    }
}
