//! Tests that only run code, most of them as one program. By itself cargo builds and links one for each file, which takes
//! longer.

mod comments;
mod pages;
mod programs;
mod reports;
mod run_digest_engine;
mod run_events;
mod run_lines;
mod templates;
mod upstream_replay;
mod worked;
