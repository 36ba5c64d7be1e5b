//! The code of the programs `test-report`, `cargo-test-report` and `run-digest`.
//!
//! This library has no stable API: its modules are public only so that the programs and the
//! tests of this repository can use them. To count runs and to find why tests failed in a program of
//! your own, depend on the crate `deodarsieve`.
#![deny(unsafe_code)]

#[doc(hidden)]
pub mod attempts;
#[doc(hidden)]
pub mod cargo_arguments;
#[doc(hidden)]
pub mod cargo_message;
#[doc(hidden)]
pub mod command;
#[doc(hidden)]
pub mod commands;
#[doc(hidden)]
pub mod earlier_run;
#[doc(hidden)]
pub mod interrupt;
#[doc(hidden)]
pub mod kept_run;
#[doc(hidden)]
pub mod lines;
#[doc(hidden)]
pub mod others;
#[doc(hidden)]
pub mod output_files;
#[doc(hidden)]
pub mod process_streams;
#[doc(hidden)]
pub mod program;
#[doc(hidden)]
pub mod program_io;
#[doc(hidden)]
pub mod progress_line;
#[doc(hidden)]
pub mod reading;
#[doc(hidden)]
pub mod replaced_file;
#[doc(hidden)]
pub mod report;
#[doc(hidden)]
pub mod report_program;
#[doc(hidden)]
pub mod report_templates;
#[doc(hidden)]
#[allow(
    clippy::new_without_default,
    reason = "`ReportText::new` takes an allocator in the proved text, where there is no `Default` for it"
)]
#[allow(
    clippy::while_let_on_iterator,
    reason = "forms of the proved text, which `tools/erase` leaves as they are"
)]
pub mod report_text;
#[doc(hidden)]
pub mod run_again;
#[doc(hidden)]
#[allow(
    clippy::while_let_on_iterator,
    reason = "forms of the proved text, which `tools/erase` leaves as they are"
)]
pub mod run_digest_engine;
#[doc(hidden)]
pub mod run_input;
#[doc(hidden)]
pub mod same_file;
#[doc(hidden)]
pub mod standard_streams;
#[doc(hidden)]
pub mod template;
