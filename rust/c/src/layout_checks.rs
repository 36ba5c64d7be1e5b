//! The sizes of the structs and the offsets of their fields, on targets whose pointers have 64 bits.
//!
//! They are those that the end of `include/deodarsieve.h` asserts, in the same order. The library does
//! not build if one of them differs. `tools/header` writes the numbers here and there.
//!
//! deodarsieve_layouts_1, the version of these layouts, has the sum 4f9d78cb173c6168.

use crate::c_values::layout::{
    FfiDuration, FfiFailedCounts, FfiFinalStats, FfiFinishedTest, FfiHead, FfiOutput, FfiResult,
    FfiRunStats, FfiSlice, FfiStressProgress, FfiStressRemaining, FfiTestView,
};
use std::mem::{offset_of, size_of};

const _: () = assert!(size_of::<FfiSlice>() == 24);
const _: () = assert!(offset_of!(FfiSlice, start) == 8);
const _: () = assert!(offset_of!(FfiSlice, length) == 16);
const _: () = assert!(size_of::<FfiHead>() == 32);
const _: () = assert!(offset_of!(FfiHead, start) == 8);
const _: () = assert!(offset_of!(FfiHead, stop) == 16);
const _: () = assert!(offset_of!(FfiHead, reads) == 24);
const _: () = assert!(size_of::<FfiResult>() == 8);
const _: () = assert!(offset_of!(FfiResult, number) == 4);
const _: () = assert!(size_of::<FfiTestView>() == 24);
const _: () = assert!(offset_of!(FfiTestView, attempts) == 8);
const _: () = assert!(offset_of!(FfiTestView, is_slow) == 16);
const _: () = assert!(offset_of!(FfiTestView, flaky_result) == 20);
const _: () = assert!(size_of::<FfiRunStats>() == 160);
const _: () = assert!(offset_of!(FfiRunStats, passed) == 64);
const _: () = assert!(offset_of!(FfiRunStats, skipped) == 144);
const _: () = assert!(offset_of!(FfiRunStats, cancel_reason) == 152);
const _: () = assert!(size_of::<FfiFailedCounts>() == 16);
const _: () = assert!(offset_of!(FfiFailedCounts, setup_scripts) == 8);
const _: () = assert!(size_of::<FfiFinalStats>() == 32);
const _: () = assert!(offset_of!(FfiFinalStats, step) == 8);
const _: () = assert!(offset_of!(FfiFinalStats, initial_run_count) == 16);
const _: () = assert!(offset_of!(FfiFinalStats, not_run) == 24);
const _: () = assert!(size_of::<FfiFinishedTest>() == 32);
const _: () = assert!(offset_of!(FfiFinishedTest, test_final_status_level) == 20);
const _: () = assert!(offset_of!(FfiFinishedTest, result) == 24);
const _: () = assert!(size_of::<FfiOutput>() == 8);
const _: () = assert!(offset_of!(FfiOutput, show_immediate) == 1);
const _: () = assert!(offset_of!(FfiOutput, store_final) == 4);
const _: () = assert!(size_of::<FfiDuration>() == 16);
const _: () = assert!(offset_of!(FfiDuration, nanoseconds) == 8);
const _: () = assert!(size_of::<FfiStressProgress>() == 48);
const _: () = assert!(offset_of!(FfiStressProgress, completed) == 8);
const _: () = assert!(offset_of!(FfiStressProgress, total) == 16);
const _: () = assert!(offset_of!(FfiStressProgress, elapsed) == 32);
const _: () = assert!(size_of::<FfiStressRemaining>() == 24);
const _: () = assert!(offset_of!(FfiStressRemaining, count) == 4);
const _: () = assert!(offset_of!(FfiStressRemaining, time) == 8);
