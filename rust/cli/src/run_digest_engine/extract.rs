// Made by tools/erase from crates/run_digest_engine/src/extract.rt. Do not edit.
//! Finding the part of a test's output that explains its failure.

use crate::program_io::device::{Sink, Source};
use crate::program_io::transfer::{read_all, write_all};
use crate::run_digest_engine::fault::Fault;
use deodarsieve::{ByteSubslice, TestOutputErrorSlice};
use std::num::NonZero;

/// The greatest number of bytes of a part that are written.
const MAX_SLICE: usize = 4_096;

/// Returns the line before a part of output.
fn heading_of(kind: &str, start: usize, len: usize) -> String {
    format!("{kind} {start} {len}\n")
}

/// Finds the part of combined output that explains the failure of a test, at most [`MAX_SLICE`] bytes
/// of it.
fn extracted(output: &[u8]) -> Option<TestOutputErrorSlice<'_>> {
    let limit = NonZero::<usize>::new(MAX_SLICE).unwrap();
    TestOutputErrorSlice::heuristic_extract_capped(Some(output), Some(output), limit)
}

/// Returns the text for a part of output.
fn text_of(found: Option<TestOutputErrorSlice<'_>>) -> Vec<u8> {
    match found {
        None => b"none\n".to_vec(),
        Some(TestOutputErrorSlice::PanicMessage { stderr_subslice }) => {
            part_text("panic-message", stderr_subslice)
        }
        Some(TestOutputErrorSlice::ErrorStr { stderr_subslice }) => {
            part_text("error-str", stderr_subslice)
        }
        Some(TestOutputErrorSlice::ShouldPanic { stdout_subslice }) => {
            part_text("should-panic", stdout_subslice)
        }
    }
}

/// Returns the text for a part of output of this kind.
fn part_text(kind: &str, part: ByteSubslice<'_>) -> Vec<u8> {
    let mut text = heading_of(kind, part.start, part.slice.len()).into_bytes();
    text.extend_from_slice(part.slice);
    text.push(b'\n');
    text
}

/// Returns the text for the combined output of a test, and whether a part of it explains the failure.
fn digest(output: &[u8]) -> (Vec<u8>, bool) {
    let found = extracted(output);
    let text = text_of(found);
    (text, found.is_some())
}

/// Reads a test's combined output from `source`, and writes the part of it that explains its failure
/// to `sink`, at most 4,096 bytes of it. Returns true if there is such a part.
///
/// The first line is `panic-message START LEN`, `error-str START LEN` or `should-panic START LEN`,
/// with the offset of the part and its length in bytes. Then come the part and a line feed. If there
/// is no such part, the text is the line `none`.
///
/// Neither device may have failed before. All input is read first, then the whole text is written,
/// then the sink is flushed. After a fault nothing was written, except that after [`Fault::Write`]
/// some first bytes of the text may have been written.
///
/// - [`Fault::Read`] if and only if the source fails, and [`Fault::Write`] if and only if the sink
///   fails.
pub fn extract<R: Source, W: Sink>(source: &mut R, sink: &mut W) -> Result<bool, Fault> {
    let bytes = read_all(source)?;
    let (text, success) = digest(bytes.as_slice());
    write_all(sink, text.as_slice())?;
    Ok(success)
}
