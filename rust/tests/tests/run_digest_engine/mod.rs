//! The engines of `run-digest` and the devices of `program_io`, through their public calls only: arguments and
//! errors, reads and writes that fail, runs of many lines, the report of finished runs, and how `StdSource` and
//! `StdSink` call the readers and writers of `std`. Whole inputs, with the output for each, are in
//! `rust/tests/data/upstream_replay.txt`.

mod engine;
mod failures;
mod finished_runs;
mod long_runs;
mod memory_devices;
mod std_devices;
mod words;
