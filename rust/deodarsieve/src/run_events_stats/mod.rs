// Made by tools/erase from crates/run_events_stats/src/lib.rt. Do not edit.
//! The counters of a run, its summary and its outcome.

pub mod outcome;
pub mod stats;
