// Made by tools/erase from crates/test_report_programs/src/lib.rt. Do not edit.
//! Follows a test run whose lines tell of each test program: it started, it ended with this status or by this signal, and
//! this is what it wrote to standard error.
//!
//! `ProgramRun` is a `TestRun` for which such lines count, in a file whose first line is one of them. The suites of a
//! program have its name, and end early with it. What is wrong with the end of a program, and with the lines of programs,
//! is a contradiction. In every other file such a line says nothing, so a test whose output is not captured cannot tell how
//! its program ended.

mod names;
mod program;
pub mod run;
