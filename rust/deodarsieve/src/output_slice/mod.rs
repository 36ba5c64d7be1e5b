// Made by tools/erase from crates/output_slice/src/lib.rt. Do not edit.
//! Finds the part of a test's output that explains why the test failed.
//!
//! [`TestOutputErrorSlice::heuristic_extract`] looks for the last panic message in standard error, or
//! else for the first line there that begins with `Error: `, or else for the first line in standard
//! output with `note: test did not panic as expected`, which the harness writes for a test with
//! `should_panic`. Output is any bytes; it need not be UTF-8.

pub mod byte_source;
pub mod first_head;
pub mod heuristics;
pub mod last_head;
mod lines;
pub mod panic_head;
mod signs;
pub mod subslice;

pub use byte_source::{ByteSource, CountedBytes};
pub use heuristics::{heuristic_error_str, heuristic_panic_message, heuristic_should_panic};
pub use panic_head::{HeadSpan, last_panic_head};
pub use subslice::{ByteSubslice, TestOutputErrorSlice};
