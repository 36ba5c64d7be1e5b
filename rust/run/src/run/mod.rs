// Made by tools/erase from crates/test_report_run/src/lib.rt. Do not edit.
//! Follows a test run line by line, and returns which tests passed, failed or were skipped, and where lines
//! of the run contradict each other.
//!
//! Make a `TestRun`, and pass each line to `on_line`. Call `finish` after the last line of the run. If the run has
//! several files, call `end_file` after the last line of each other file. Each of them returns notes, for example that
//! a test failed. `finish` also returns the counts, the outcome and the exit status of the run. The types of notes and
//! counts are in `test_report_run_notes`.

mod contradictions;
mod counted;
mod cuts;
pub mod early;
mod ended;
pub mod error;
mod flaky;
mod headings;
mod last_line;
mod longest_end;
mod open_suites;
mod others;
mod over;
mod prints;
pub mod run;
pub mod running;
mod said;
pub mod status;
mod suite;
mod suite_name;
pub mod suite_names;
mod texts;
mod totals;
