//! The text that `run-digest` writes for an input.
//!
//! A case is `STATUS INPUT STDOUT STDERR`: the exit status, and bytes in hexadecimal, or `-` for
//! none.

use deodarsieve_cli::program_io::memory_device::{MemorySink, MemorySource};
use deodarsieve_cli::run_digest_engine::command::Command;
use deodarsieve_cli::run_digest_engine::count::count;
use deodarsieve_cli::run_digest_engine::extract::extract;
use deodarsieve_cli::run_digest_engine::fault::Fault;

/// The exit status of a program, and what it writes to standard output and error.
#[derive(PartialEq)]
struct Output {
    status: u8,
    stdout: Vec<u8>,
    stderr: Vec<u8>,
}

/// Returns the output of the program for this result of an engine.
fn output_of(result: Result<bool, Fault>, stdout: Vec<u8>) -> Output {
    let (status, stderr) = match result {
        Ok(true) => (0, Vec::new()),
        Ok(false) => (1, Vec::new()),
        Err(fault) => (fault.status(), format!("{fault}\n").into_bytes()),
    };
    Output {
        status,
        stdout,
        stderr,
    }
}

/// Returns the bytes that a word spells in hexadecimal, with `-` for none.
fn bytes_in(word: &str) -> Option<Vec<u8>> {
    match word {
        "-" => Some(Vec::new()),
        digits => hex::decode(digits).ok(),
    }
}

/// Runs an engine from memory to memory.
fn run(command: Command, input: &[u8]) -> Output {
    let mut buffer = [0; 8192];
    let mut source = MemorySource::new(input, None);
    let mut sink = MemorySink::new(&mut buffer, None);
    let result = match command {
        Command::Count => count(&mut source, &mut sink),
        Command::Extract => extract(&mut source, &mut sink),
    };
    output_of(result, sink.written().to_vec())
}

/// Returns true if the crates have the result of a case, or `None` if the text is not a case.
pub fn agrees(command: Command, case: &str) -> Option<bool> {
    let words: Vec<&str> = case.split(' ').collect();
    let [status, input, stdout, stderr] = words.as_slice() else {
        return None;
    };
    let wanted = Output {
        status: status.parse().ok()?,
        stdout: bytes_in(stdout)?,
        stderr: bytes_in(stderr)?,
    };
    Some(run(command, &bytes_in(input)?) == wanted)
}
