//! The tests of deodarsieve.
//!
//! The tests of the layer, which are packaged with it, have the module `fixtures` too. `output_slice_tests` is a program:
//! `tests/programs.rs` compares its output with the stored one.

#![forbid(unsafe_code)]

mod c_values;
pub mod devices;
#[path = "../../deodarsieve/tests/fixtures/mod.rs"]
pub mod fixtures;
pub mod named;
pub mod output_slice_tests;
#[cfg(feature = "reports")]
pub mod reports;
