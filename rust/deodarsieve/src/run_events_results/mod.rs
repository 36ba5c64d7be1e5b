// Made by tools/erase from crates/run_events_results/src/lib.rt. Do not edit.
//! How an attempt to run a test or a setup script ended, how it counts and what is shown of it.
//!
//! The modules `config`, `run_mode` and `stress` have the settings that decide this, and the numbers of
//! sub-runs. `levels` ranks how much attention a finished test needs. `view` has the parts of a finished
//! test that decide its counters and levels.

pub mod config;
pub mod levels;
pub mod results;
pub mod run_mode;
pub mod stress;
pub mod view;
