// Made by tools/erase from crates/run_events_attempts/src/lib.rt. Do not edit.
//! The attempts of a finished test, and what its child process leaves: its output, and the errors of
//! starting it and of reading from it.
//!
//! `ExecutionDescription` says whether the test succeeded, was flaky or failed. The module `chain` has the
//! type of an error with its causes. `Moment` is a point in time, with an offset from UTC.

pub mod attempts;
pub mod chain;
pub mod child;
