// Made by tools/erase from crates/c_values/src/slices.rt. Do not edit.
//! Streams of output, and parts of them.

use crate::c_values::layout::FfiSlice;
use deodarsieve::TestOutputErrorSlice;

/// Returns a stream, or `None` if it was not captured.
pub fn stream(is_captured: bool, bytes: &[u8]) -> Option<&[u8]> {
    is_captured.then_some(bytes)
}

/// Returns the struct of C for a part that was found, or for none.
pub fn written_slice(found: Option<TestOutputErrorSlice<'_>>) -> FfiSlice {
    let (kind, part) = match found {
        None => {
            return FfiSlice {
                kind: 0,
                start: 0,
                length: 0,
            };
        }
        Some(TestOutputErrorSlice::PanicMessage { stderr_subslice }) => (1, stderr_subslice),
        Some(TestOutputErrorSlice::ErrorStr { stderr_subslice }) => (2, stderr_subslice),
        Some(TestOutputErrorSlice::ShouldPanic { stdout_subslice }) => (3, stdout_subslice),
    };
    FfiSlice {
        kind,
        start: part.start,
        length: part.slice.len(),
    }
}
