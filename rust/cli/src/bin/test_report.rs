//! `test-report`: runs a test command, or reads the JSON lines that Rust's test harness or cargo nextest wrote, and
//! reports which tests failed, and why.

use deodarsieve_cli::report_program::{exit_code, test_report_with};
use std::process::ExitCode;

fn main() -> ExitCode {
    exit_code(test_report_with)
}
