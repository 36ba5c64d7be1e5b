// Made by tools/erase from crates/run_digest_engine/src/lib.rt. Do not edit.
//! The commands of `run-digest`. They read from any `Source` and write to any `Sink` of `program_io`.

pub mod command;
pub mod count;
mod entry;
pub mod extract;
pub mod fault;
mod lines;
mod parts;
mod report;
pub mod runs;
mod units;
mod words;
