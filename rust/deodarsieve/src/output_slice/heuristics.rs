// Made by tools/erase from crates/output_slice/src/heuristics.rt. Do not edit.
//! The three heuristics, and the choice between them.

use crate::output_slice::last_head::last_head;
use crate::output_slice::lines::{last_byte, line_end, line_start};
use crate::output_slice::signs::{ERROR_SIGN, NOTE, first_sign, quiet_ends};
use crate::output_slice::subslice::{ByteSubslice, TestOutputErrorSlice};
use bstr::ByteSlice;
use core::num::NonZero;

/// The white space of ASCII. It is skipped byte by byte, which is faster than by characters.
const SPACES: &[u8] = b"\t\n\x0b\x0c\r ";

impl<'a> TestOutputErrorSlice<'a> {
    /// Finds the part of a test's output that explains its failure: the last panic message in
    /// `stderr`, or else its first `Error: ` message, or else the "test did not panic" note in
    /// `stdout`.
    ///
    /// Pass `None` for a stream that was not captured, and the same bytes twice if both streams were
    /// captured as one. The rules are those of nextest-runner: see [`heuristic_panic_message`],
    /// [`heuristic_error_str`] and [`heuristic_should_panic`].
    ///
    /// ```
    /// use deodarsieve::TestOutputErrorSlice;
    ///
    /// let output = b"1 of 2\nthread 'adds' panicked at src/lib.rs:7:5:\nassertion failed\n";
    /// let slice = TestOutputErrorSlice::heuristic_extract(Some(output), Some(output));
    /// let text = slice.map(|slice| slice.to_string());
    /// assert_eq!(text.as_deref(), Some("thread 'adds' panicked at src/lib.rs:7:5:\nassertion failed"));
    /// ```
    #[must_use]
    pub fn heuristic_extract(stdout: Option<&'a [u8]>, stderr: Option<&'a [u8]>) -> Option<Self> {
        let Some(bytes) = stderr else {
            let quiet = quiet_ends(stdout.unwrap_or(b""), b"");
            return note_slice(stdout, quiet.stdout);
        };
        match heuristic_panic_message(bytes) {
            Some(part) => Some(Self::PanicMessage {
                stderr_subslice: part,
            }),
            None => later_slice(stdout, bytes),
        }
    }

    /// Returns the part that [`Self::heuristic_extract`] finds, cut to its first `limit` bytes.
    ///
    /// The cut may fall inside a character, and white space before it stays. The kind and the start
    /// are those of the whole part.
    #[must_use]
    pub fn heuristic_extract_capped(
        stdout: Option<&'a [u8]>,
        stderr: Option<&'a [u8]>,
        limit: NonZero<usize>,
    ) -> Option<Self> {
        let whole = Self::heuristic_extract(stdout, stderr)?;
        Some(whole.capped(limit))
    }
}

/// Returns the error slice of `stderr`, or else the note line of `stdout`. There is no panic slice.
fn later_slice<'a>(stdout: Option<&'a [u8]>, stderr: &'a [u8]) -> Option<TestOutputErrorSlice<'a>> {
    let quiet = quiet_ends(stdout.unwrap_or(b""), stderr);
    match error_str_before(stderr, quiet.stderr) {
        Some(part) => Some(TestOutputErrorSlice::ErrorStr {
            stderr_subslice: part,
        }),
        None => note_slice(stdout, quiet.stdout),
    }
}

/// Returns the note line of `stdout` if it was captured. No note begins at or after `end`.
fn note_slice(stdout: Option<&[u8]>, end: usize) -> Option<TestOutputErrorSlice<'_>> {
    let part = should_panic_before(stdout?, end)?;
    Some(TestOutputErrorSlice::ShouldPanic {
        stdout_subslice: part,
    })
}

/// Returns `stderr` from its last panic message to the end, without the white space there, or `None`.
///
/// The message begins at the last head: `thread '` at the start of a line, a name, and `' panicked at `
/// or `' (N) panicked at `, as Rust's panic hook writes it. Heads are matched from left to right and do
/// not overlap. If the line before the head begins with `Error:`, the message begins at that line. Empty
/// lines between the two are skipped, and the first line of `stderr` is never taken for such a line.
#[must_use]
pub fn heuristic_panic_message(stderr: &[u8]) -> Option<ByteSubslice<'_>> {
    let head = last_head(stderr)?;
    let start = widened(stderr, head.start);
    Some(trimmed(stderr, start))
}

/// Returns `stderr` from its first line that begins with `Error: ` to the end, without the white space
/// there, or `None` if no line begins with it.
///
/// Rust prints the error of a test or of a `main` that returns a `Result` in this form.
#[must_use]
pub fn heuristic_error_str(stderr: &[u8]) -> Option<ByteSubslice<'_>> {
    error_str_before(stderr, stderr.len())
}

/// Returns the error slice, given that no error marker begins at or after `end`.
///
/// `heuristic_extract` searches for the markers of the error and of the note in one pass, and
/// passes the offset at or after which there is none.
fn error_str_before(stderr: &[u8], end: usize) -> Option<ByteSubslice<'_>> {
    let start = error_start(stderr, end)?;
    Some(trimmed(stderr, start))
}

/// Returns the offset of the first line that begins with `Error: `, given that no error marker
/// begins at or after `end`.
fn error_start(stderr: &[u8], end: usize) -> Option<usize> {
    if stderr.starts_with_str(&ERROR_SIGN.text[1..]) {
        return Some(0);
    }
    let feed = first_sign(stderr, ERROR_SIGN, end)?;
    Some(feed + 1)
}

/// Returns the first line of `stdout` that contains `note: test did not panic as expected`, without
/// the `\n` or `\r\n` that ends it, or `None` if no line contains it.
///
/// The test harness writes this line if a test with `should_panic` did not panic.
#[must_use]
pub fn heuristic_should_panic(stdout: &[u8]) -> Option<ByteSubslice<'_>> {
    should_panic_before(stdout, stdout.len())
}

/// Returns the note line, given that no note begins at or after `end`.
fn should_panic_before(stdout: &[u8], end: usize) -> Option<ByteSubslice<'_>> {
    let at = first_sign(stdout, NOTE, end)?;
    let start = line_start(stdout, at);
    let stop = line_end(stdout, at);
    Some(ByteSubslice {
        slice: without_end(&stdout[start..stop]),
        start,
    })
}

/// Returns the line without the `\n` or `\r\n` that ends it.
fn without_end(line: &[u8]) -> &[u8] {
    match line {
        [front @ .., b'\r', b'\n'] => front,
        [front @ .., b'\n'] => front,
        _ => line,
    }
}

/// Returns the start of the line before `start` if that begins with `Error:`, or else `start`.
fn widened(stderr: &[u8], start: usize) -> usize {
    let end = breaks_start(stderr, start);
    let Some(at) = last_byte(stderr, b'\n', end) else {
        return start;
    };
    if (&stderr[at..end]).starts_with_str(b"\nError:") {
        at + 1
    } else {
        start
    }
}

/// Returns the offset of the first of the line breaks right before `start`.
fn breaks_start(stderr: &[u8], start: usize) -> usize {
    let mut at = start;
    while at > 0 && (stderr[at - 1] == b'\n' || stderr[at - 1] == b'\r') {
        at -= 1;
    }
    at
}

/// Returns the bytes from `start`, without the white space at the end.
fn trimmed(stderr: &[u8], start: usize) -> ByteSubslice<'_> {
    let end = spaces_start(stderr, start);
    ByteSubslice {
        slice: stderr[start..end].trim_end_with(char::is_whitespace),
        start,
    }
}

/// Returns the offset of the ASCII white space at the end of the bytes, which is at least `start`.
fn spaces_start(bytes: &[u8], start: usize) -> usize {
    match (&bytes[start..]).rfind_not_byteset(SPACES) {
        Some(last) => start + last + 1,
        None => start,
    }
}
