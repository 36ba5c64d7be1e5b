//! The slice of combined output.
//!
//! A case is `OUTPUT KIND START LEN` or `OUTPUT none`: bytes in hex, `-` for none, and the kind, the
//! start and the length of the slice.

use crate::upstream_replay::hexadecimal::bytes_in;
use deodarsieve::TestOutputErrorSlice;

/// Returns the kind of a slice, its start and its length.
pub fn parts_of(found: TestOutputErrorSlice<'_>) -> (&'static str, usize, usize) {
    let (kind, part) = match found {
        TestOutputErrorSlice::PanicMessage { stderr_subslice } => {
            ("panic-message", stderr_subslice)
        }
        TestOutputErrorSlice::ErrorStr { stderr_subslice } => ("error-str", stderr_subslice),
        TestOutputErrorSlice::ShouldPanic { stdout_subslice } => ("should-panic", stdout_subslice),
    };
    (kind, part.start, part.slice.len())
}

/// Returns true if a word names a kind of slice.
fn is_kind(word: &str) -> bool {
    matches!(word, "panic-message" | "error-str" | "should-panic")
}

/// Returns the slice that words name, `none` for no slice, or `None` if the words name neither.
fn slice_in<'a>(words: &[&'a str]) -> Option<Option<(&'a str, usize, usize)>> {
    match words {
        ["none"] => Some(None),
        [kind, start, len] if is_kind(kind) => {
            Some(Some((kind, start.parse().ok()?, len.parse().ok()?)))
        }
        _ => None,
    }
}

/// Returns true if the crates have the result of a case, or `None` if the text is no case.
pub fn agrees(case: &str) -> Option<bool> {
    let words: Vec<&str> = case.split(' ').collect();
    let [output, rest @ ..] = words.as_slice() else {
        return None;
    };
    let (output, wanted) = (bytes_in(output)?, slice_in(rest)?);
    let found = TestOutputErrorSlice::heuristic_extract(Some(&output), Some(&output));
    Some(found.map(parts_of) == wanted)
}
