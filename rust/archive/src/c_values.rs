//! Files that `tools/erase` writes for the C library: its structs, its codes, and the conversions of
//! the crate's values to both.
#![allow(dead_code, reason = "the comparison converts nothing back")]

#[path = "../../c/src/c_values/codes.rs"]
pub mod codes;
#[path = "../../c/src/c_values/layout.rs"]
pub mod layout;
#[path = "../../c/src/c_values/status.rs"]
pub mod status;
#[path = "../../c/src/c_values/values.rs"]
pub mod values;
