// Made by tools/erase from crates/run_events/src/lib.rt. Do not edit.
//! The events that a test runner sends to its reporters, and the types in them: results, output and
//! errors of child processes, attempts, levels, counters, summaries and outcomes.

pub mod config;
pub mod events;
pub mod progress;
pub mod unit_error;
