//! Whole outputs of failed tests, which a document has if why a test failed leaves out a part of its output.

use crate::report::colours::without_colours;
use crate::report::escape::text;
use crate::report::lines::{first_line, without_returns};
use crate::report::style::ESCAPE;

/// About how many bytes the tags have that a colour takes in a page.
const TAGS: usize = 24;

/// How much room a document has for outputs of failed tests.
#[derive(Clone, Copy)]
pub(crate) struct OutputRoom {
    /// The most bytes of one output.
    each: usize,

    /// The number of bytes of outputs, as they are written, after which there are no other outputs.
    left: usize,
}

/// The room of a page.
pub(crate) const PAGE_ROOM: OutputRoom = OutputRoom {
    each: 1_048_576,
    left: 16_777_216,
};

/// The most bytes of a reason, of an output and of the line of a problem in a summary, before they are escaped.
pub(crate) const MOST_BYTES_OF_TEXT: usize = 16_384;

/// The most bytes that the problems and the failed tests of a summary have together. GitHub shows nothing of a summary
/// of more than 1 MiB. The first problem and the first failed test always fit, because the parts of both are cut.
pub(crate) const MOST_BYTES_OF_SUMMARY: usize = 900_000;

/// The room of a summary.
pub(crate) const SUMMARY_ROOM: OutputRoom = OutputRoom {
    each: MOST_BYTES_OF_TEXT,
    left: MOST_BYTES_OF_SUMMARY,
};

/// The whole output of a failed test. Its text has the colours of the test, and is not escaped.
pub(crate) struct WholeOutput {
    /// The number of its lines.
    pub(crate) lines: usize,

    /// The text, or its end after a line with the number of bytes before that.
    pub(crate) text: String,
}

impl OutputRoom {
    /// Returns an output that is not blank, as far as there is room for it, and takes that room.
    pub(crate) fn take(&mut self, output: &str) -> Option<WholeOutput> {
        if self.left == 0 {
            return None;
        }
        let plain = without_colours(output);
        let plain = plain.trim_end();
        if plain.is_empty() {
            return None;
        }
        let lines = plain.split('\n').count();
        let output = without_returns(first_lines(output.trim_end(), lines));
        let shown = shown_end(&output, self.each);
        let tags = shown.matches(ESCAPE).count() * TAGS;
        self.left = self.left.saturating_sub(written_size(&text(&shown)) + tags);
        Some(WholeOutput { lines, text: shown })
    }
}

/// Returns this number of lines of a text, which has as many. Lines after them have colours and nothing else.
fn first_lines(text: &str, count: usize) -> &str {
    let end = text.match_indices('\n').nth(count - 1);
    &text[..end.map_or(text.len(), |(end, _)| end)]
}

/// Returns the end of a text as it is shown, after a line with the number of bytes before that.
fn shown_end(whole: &str, most: usize) -> String {
    let end = kept_end(whole, most);
    match whole.len() - end.len() {
        0 => end.to_string(),
        before => format!("({before} bytes before this)\n{end}"),
    }
}

/// Returns the end of a text that has at most this number of bytes: from the start of a line or, if no line starts in
/// it, of a character.
fn kept_end(text: &str, most: usize) -> &str {
    if text.len() <= most {
        return text;
    }
    let from_char = |place| &text[text.ceil_char_boundary(place)..];
    let before = text.len() - most;
    match first_line(from_char(before - 1)) {
        (_, "") => from_char(before),
        (_, lines) => lines,
    }
}

/// Returns how many bytes an escaped text has between tags.
fn written_size(text: &str) -> usize {
    let size = |byte| match byte {
        b'&' | b'\r' => 5,
        b'<' | b'>' => 4,
        _ => 1,
    };
    text.bytes().map(size).sum()
}
