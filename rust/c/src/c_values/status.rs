// Made by tools/erase from crates/c_values/src/status.rt. Do not edit.
//! The statuses that the functions return.

/// The function succeeded.
pub const OK: u32 = 0;

/// A code is not in its table, or another number in an argument is not allowed.
pub const BAD_CODE: u32 = 1;

/// A counter or a sum does not fit `usize`.
pub const COUNTER_FULL: u32 = 2;
