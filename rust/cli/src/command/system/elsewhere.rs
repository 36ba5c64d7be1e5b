//! Processes on systems that are no Unix, by what the standard library has everywhere.

use std::io;
use std::process::{Child, Command, ExitStatus, exit};

/// The exit status after a process of which the system says none.
const UNKNOWN: i32 = 1;

/// The signals that ask this process to end. There are none.
#[derive(Debug)]
pub struct Signals;

impl Signals {
    /// Does nothing.
    pub fn catch() -> io::Result<Signals> {
        Ok(Signals)
    }

    /// Returns false: no signal has come.
    pub fn take_terminate(&self) -> bool {
        false
    }

    /// Returns false: no signal is caught.
    pub fn is_interrupted(&self) -> bool {
        false
    }

    /// Returns false: no signal is caught.
    pub fn are_end(&self) -> bool {
        false
    }

    /// Returns false: nothing is known of the process that started this one.
    pub fn is_left_alone(&self) -> bool {
        false
    }
}

/// Ends a child. If that fails, it has ended already.
pub fn terminate(child: &mut Child) {
    let _ = child.kill();
}

/// Returns false: no signal is known to be ignored.
pub fn is_ignored(_signal: i32) -> bool {
    false
}

/// Returns `None`: no signal ends a process.
pub fn signal_of(_status: ExitStatus) -> Option<i32> {
    None
}

/// Returns the exit status with which this process has to end, so that it ends as a child did.
pub fn end_as(status: ExitStatus) -> i32 {
    status.code().unwrap_or(UNKNOWN)
}

/// Runs a program in place of this one, and ends with its exit status. Returns only if the program cannot be started.
pub fn become_program(mut command: Command) -> io::Error {
    match command.status() {
        Ok(status) => exit(end_as(status)),
        Err(error) => error,
    }
}
