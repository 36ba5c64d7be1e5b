//! Compares the search for a panic message with a slow one, on the outputs of standard input.

use std::io;
use std::process::ExitCode;

fn main() -> io::Result<ExitCode> {
    deodarsieve_tests::output_slice_tests::main()
}
