//! The C library of Deodarsieve: counters, outcomes, levels and failure output of a test run.
//!
//! `cargo build --release -p deodarsieve-c` builds `libdeodarsieve_c.a` and `libdeodarsieve_c.so`.
//! `include/deodarsieve.h` declares their functions and documents the conditions of each call. The
//! README shows how to install the library and how to link it.
//!
//! The module [`exports`] has the functions. Each of them converts its arguments by [`c_values`], calls
//! the crate `deodarsieve`, and converts the result. From Rust, use that crate instead: this one has no
//! stable Rust API, and its functions are public for its tests.
//!
//! # Panics
//!
//! No panic crosses the boundary to C: if a function of this library panics, the process aborts. A
//! function panics only if its caller breaks a condition of the header, and even then it may have
//! undefined behavior instead.
#![deny(unsafe_op_in_unsafe_fn)]
#![deny(missing_docs)]

pub mod c_values;
pub mod exports;
#[cfg(target_pointer_width = "64")]
mod layout_checks;

/// Returns the `length` elements at `start` as a slice. `start` may be null if `length` is 0.
///
/// # Safety
///
/// If `length` is not 0:
///
/// - `start` is not null, and is aligned for `T`.
/// - `start` points to `length` initialized elements, which belong to one allocation and take up at
///   most `isize::MAX` bytes.
/// - For as long as the slice is used, these elements exist and nobody writes to them. The caller
///   chooses the lifetime `'a`, so the compiler does not check this.
unsafe fn slice_of<'a, T>(start: *const T, length: usize) -> &'a [T] {
    if length == 0 {
        return &[];
    }
    // SAFETY: the length is not 0, so the conditions above are those of `from_raw_parts`.
    unsafe { std::slice::from_raw_parts(start, length) }
}
