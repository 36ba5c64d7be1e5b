//! Slices of output, with both streams, with a limit, and each heuristic alone.

use crate::upstream_replay::extract::parts_of;
use crate::upstream_replay::rows::words::bytes_in;
use deodarsieve::{
    ByteSubslice, TestOutputErrorSlice, heuristic_error_str, heuristic_panic_message,
    heuristic_should_panic,
};
use std::num::NonZero;

/// Returns the kind of a slice, its start and its length; `none` for no slice.
pub fn slice_text(found: Option<TestOutputErrorSlice<'_>>) -> String {
    let Some((kind, start, length)) = found.map(parts_of) else {
        return String::from("none");
    };
    format!("{kind} {start} {length}")
}

/// Returns the slice of two streams.
fn extracted(stdout: &str, stderr: &str) -> String {
    let (stdout, stderr) = (bytes_in(stdout), bytes_in(stderr));
    let found = TestOutputErrorSlice::heuristic_extract(stdout.as_deref(), stderr.as_deref());
    slice_text(found)
}

/// Returns the slice of two streams, cut to its first `limit` bytes, and these bytes in
/// hexadecimal.
fn extracted_capped(limit: &str, stdout: &str, stderr: &str) -> Option<String> {
    let limit: NonZero<usize> = limit.parse().ok()?;
    let (stdout, stderr) = (bytes_in(stdout), bytes_in(stderr));
    let found =
        TestOutputErrorSlice::heuristic_extract_capped(stdout.as_deref(), stderr.as_deref(), limit);
    let text = slice_text(found);
    Some(match found.and_then(|found| found.combined_subslice()) {
        None => text,
        Some(part) => format!("{text} {}", hex::encode(part.slice)),
    })
}

/// Returns the start of the part that a heuristic finds and its bytes in hex; `none` for no part.
fn part_text(
    heuristic: for<'a> fn(&'a [u8]) -> Option<ByteSubslice<'a>>,
    stream: &str,
) -> Option<String> {
    let bytes = bytes_in(stream).unwrap_or_default();
    Some(match heuristic(&bytes) {
        None => String::from("none"),
        Some(part) => format!("{} {}", part.start, hex::encode(part.slice)),
    })
}

/// Returns the result of the crates, or `None` if the question is of another group.
pub fn answer(parts: &[&str]) -> Option<String> {
    match parts {
        ["heuristic_extract", stdout, stderr] => Some(extracted(stdout, stderr)),
        ["heuristic_extract_capped", limit, stdout, stderr] => {
            extracted_capped(limit, stdout, stderr)
        }
        ["heuristic_panic_message", stderr] => part_text(heuristic_panic_message, stderr),
        ["heuristic_error_str", stderr] => part_text(heuristic_error_str, stderr),
        ["heuristic_should_panic", stdout] => part_text(heuristic_should_panic, stdout),
        _ => None,
    }
}
