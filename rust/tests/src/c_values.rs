//! The codes and the structs of the C library. The tests use its tables of reasons, levels and displays.
#![allow(dead_code, reason = "the tests use some of the tables alone")]

#[path = "../../c/src/c_values/codes.rs"]
pub mod codes;
#[path = "../../c/src/c_values/layout.rs"]
pub mod layout;
