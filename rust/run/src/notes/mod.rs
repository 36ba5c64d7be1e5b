// Made by tools/erase from crates/test_report_run_notes/src/lib.rt. Do not edit.
//! What a test run makes known, as the forms of a report take it: its notes, its end, and how its tests
//! finished.

pub mod finish;
pub mod note;
