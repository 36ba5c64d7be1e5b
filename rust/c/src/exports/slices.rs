// Made by tools/erase from crates/deodarsieve/src/slices.rt. Do not edit.
//! The part of a test's output that explains its failure, and the last head of a panic message.

use crate::c_values::layout::{FfiHead, FfiSlice};
use crate::c_values::slices::{stream, written_slice};
use crate::c_values::status::{BAD_CODE, OK};
use deodarsieve::TestOutputErrorSlice;
use deodarsieve::counted::{ByteSource, CountedBytes, HeadSpan, last_panic_head};
use std::num::NonZero;

/// Writes the part of a test's output that explains its failure: the last panic message in standard
/// error, or else its first error message, or else the line of standard output that notes that a
/// test did not panic. The bytes of a stream that was not captured are not read.
///
/// # Safety
///
/// - `out` points to `out_length` elements that nobody writes during the call, or
///   `out_length` is 0.
/// - `err` points to `err_length` elements that nobody writes during the call, or
///   `err_length` is 0.
/// - `answer` points to a value, and is aligned and not null.
#[unsafe(no_mangle)]
pub unsafe extern "C" fn deodarsieve_slice_extract(
    is_out_captured: bool,
    out: *const u8,
    out_length: usize,
    is_err_captured: bool,
    err: *const u8,
    err_length: usize,
    answer: &mut FfiSlice,
) -> u32 {
    let out = unsafe { crate::slice_of(out, out_length) };
    let err = unsafe { crate::slice_of(err, err_length) };
    let found = TestOutputErrorSlice::heuristic_extract(
        stream(is_out_captured, out),
        stream(is_err_captured, err),
    );
    *answer = written_slice(found);
    OK
}

/// Writes the first bytes of that part, at most `limit`. For a limit of 0 it returns `BAD_CODE`.
///
/// # Safety
///
/// - `out` points to `out_length` elements that nobody writes during the call, or
///   `out_length` is 0.
/// - `err` points to `err_length` elements that nobody writes during the call, or
///   `err_length` is 0.
/// - `answer` points to a value, and is aligned and not null.
#[unsafe(no_mangle)]
pub unsafe extern "C" fn deodarsieve_slice_extract_capped(
    is_out_captured: bool,
    out: *const u8,
    out_length: usize,
    is_err_captured: bool,
    err: *const u8,
    err_length: usize,
    limit: usize,
    answer: &mut FfiSlice,
) -> u32 {
    let out = unsafe { crate::slice_of(out, out_length) };
    let err = unsafe { crate::slice_of(err, err_length) };
    let Some(limit) = NonZero::<usize>::new(limit) else {
        return BAD_CODE;
    };
    let capped = TestOutputErrorSlice::heuristic_extract_capped(
        stream(is_out_captured, out),
        stream(is_err_captured, err),
        limit,
    );
    *answer = written_slice(capped);
    OK
}

/// Writes the last head of a panic message, and the number of reads of a byte that the search made.
///
/// # Safety
///
/// - `bytes` points to `bytes_length` elements that nobody writes during the call, or
///   `bytes_length` is 0.
/// - `answer` points to a value, and is aligned and not null.
#[unsafe(no_mangle)]
pub unsafe extern "C" fn deodarsieve_head_find_last(
    bytes: *const u8,
    bytes_length: usize,
    answer: &mut FfiHead,
) -> u32 {
    let bytes = unsafe { crate::slice_of(bytes, bytes_length) };
    let mut source = CountedBytes::new(bytes);
    let head = last_panic_head(&mut source);
    *answer = written_head(head, source.reads());
    OK
}

/// Returns the struct of C for a head or for none, and the number of reads.
fn written_head(head: Option<HeadSpan>, reads: u128) -> FfiHead {
    let reads = u64::try_from(reads).unwrap_or(u64::MAX);
    match head {
        Some(head) => FfiHead {
            is_found: true,
            start: head.start,
            stop: head.stop,
            reads,
        },
        None => FfiHead {
            is_found: false,
            start: 0,
            stop: 0,
            reads,
        },
    }
}
