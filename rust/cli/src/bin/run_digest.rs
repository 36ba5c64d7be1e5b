//! `run-digest`: reads standard input. `count` reads the description of a run, and counts its tests.
//! `extract` reads the output of a test, and finds the part that explains why the test failed.

use deodarsieve_cli::commands::run_digest;
use deodarsieve_cli::program::{Failure, print_clap, run_engine};
use deodarsieve_cli::run_digest_engine::count::count;
use deodarsieve_cli::run_digest_engine::extract::extract;
use deodarsieve_cli::run_digest_engine::fault::Fault;
use deodarsieve_cli::standard_streams::{StandardInput, StandardOutput};
use std::process::ExitCode;

/// Does what the arguments ask for, and returns the exit status.
fn run() -> Result<ExitCode, Failure> {
    let (reader, writer) = (StandardInput::get(), StandardOutput::lock());
    match run_digest().try_get_matches() {
        Ok(matches) if matches.subcommand_name() == Some("extract") => {
            run_engine(reader, writer, |source, sink| extract(source, sink))
        }
        Ok(_) => run_engine(reader, writer, |source, sink| count(source, sink)),
        Err(message) if message.use_stderr() => Err(Fault::BadWord.into()),
        Err(help) => print_clap(&help).map_err(|_| Fault::Write.into()),
    }
}

fn main() -> ExitCode {
    run().unwrap_or_else(|failure| failure.exit(""))
}
