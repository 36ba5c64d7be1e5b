//! `cargo-test-report`: `cargo test-report [OPTIONS] [ARG..]` runs `cargo test ARG..`, and reports which tests failed,
//! and why.

use deodarsieve_cli::report_program::{cargo_test_report_with, exit_code};
use std::process::ExitCode;

fn main() -> ExitCode {
    exit_code(cargo_test_report_with)
}
