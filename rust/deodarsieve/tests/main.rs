//! The tests of this package, as one program. By itself cargo builds and links one for each file, which takes longer.

mod as_nextest_uses;
mod common;
mod conditions;
mod conversions;
mod error_lists;
mod examples;
mod first_program;
#[allow(dead_code, reason = "other tests use the other samples")]
mod fixtures;
mod long_chains;
mod long_outputs;
mod moments;
mod nextest_json;
mod outside;
mod statistics;
mod texts;
mod traits;
mod tree;
mod upstream_replay;
mod upstream_traits;
mod windows;
