//! Compares the kinds and the offsets of slices with the layer.

use crate::tables::SLICES;
use deodarsieve::TestOutputErrorSlice;
use deodarsieve_c::c_values::layout::{FfiHead, FfiSlice};
use deodarsieve_c::c_values::status::OK;
use deodarsieve_c::exports::outcomes::deodarsieve_outcome_of_sub_runs;
use deodarsieve_c::exports::slices::{
    deodarsieve_head_find_last, deodarsieve_slice_extract, deodarsieve_slice_extract_capped,
};

/// Returns the slice of the export, as the name of its kind, its offset and its length.
fn found(out: &[u8], err: &[u8]) -> (&'static str, usize, usize) {
    let mut answer = FfiSlice {
        kind: 77,
        start: 77,
        length: 77,
    };
    // SAFETY: the pointers and lengths are those of two slices.
    let status = unsafe {
        let (out_length, err_length) = (out.len(), err.len());
        deodarsieve_slice_extract(
            true,
            out.as_ptr(),
            out_length,
            true,
            err.as_ptr(),
            err_length,
            &mut answer,
        )
    };
    assert_eq!(status, OK);
    (SLICES[answer.kind as usize], answer.start, answer.length)
}

/// Returns the slice of the layer.
fn found_by_layer(out: &[u8], err: &[u8]) -> (&'static str, usize, usize) {
    let (name, part) = match TestOutputErrorSlice::heuristic_extract(Some(out), Some(err)) {
        None => return ("NONE", 0, 0),
        Some(TestOutputErrorSlice::PanicMessage { stderr_subslice }) => {
            ("PANIC_MESSAGE", stderr_subslice)
        }
        Some(TestOutputErrorSlice::ErrorStr { stderr_subslice }) => ("ERROR_STR", stderr_subslice),
        Some(TestOutputErrorSlice::ShouldPanic { stdout_subslice }) => {
            ("SHOULD_PANIC", stdout_subslice)
        }
    };
    (name, part.start, part.slice.len())
}

#[test]
fn slices_are_those_of_the_layer() {
    let note: &[u8] = b"log\nnote: test did not panic as expected\nmore\n";
    let panicked = b"log\nthread 'main' panicked at src/lib.rs:4:5:\nboom\n";
    let streams: [(&str, &[u8], &[u8]); 4] = [
        ("NONE", b"log\n", b"log\n"),
        ("PANIC_MESSAGE", note, panicked),
        ("ERROR_STR", note, b"log\nError: no\nmore\n"),
        ("SHOULD_PANIC", note, b"log\n"),
    ];
    assert_eq!(streams.map(|(kind, ..)| kind), SLICES);
    for (kind, out, err) in streams {
        assert_eq!(found(out, err), found_by_layer(out, err));
        assert_eq!(found(out, err).0, kind);
    }
}

/// A standard library with debug assertions refuses to make a slice of a null pointer.
#[test]
fn null_with_length_0_is_empty() {
    let null = std::ptr::null();
    let mut slice = FfiSlice {
        kind: 77,
        start: 77,
        length: 77,
    };
    let mut head = FfiHead {
        is_found: true,
        start: 77,
        stop: 77,
        reads: 77,
    };
    let mut outcome = 77;
    // SAFETY: the lengths are 0.
    let statuses = unsafe {
        [
            deodarsieve_slice_extract(true, null, 0, true, null, 0, &mut slice),
            deodarsieve_slice_extract_capped(true, null, 0, true, null, 0, 1, &mut slice),
            deodarsieve_head_find_last(null, 0, &mut head),
            deodarsieve_outcome_of_sub_runs(std::ptr::null(), 0, &mut outcome),
        ]
    };
    assert_eq!(statuses, [OK; 4]);
    assert_eq!((slice.kind, head.is_found, outcome), (0, false, 0));
}
