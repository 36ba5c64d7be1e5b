//! The standard streams of a stand-in.

use super::run_line::{RunLine, is_run_line};
use std::io::{self, Write};

/// Standard output, for the lines of the run, and standard error, for what else a program writes.
pub struct RunStreams<O, E> {
    output: O,
    errors: E,
}

impl<O: Write, E: Write> RunStreams<O, E> {
    /// Returns these two streams.
    pub fn new(output: O, errors: E) -> RunStreams<O, E> {
        RunStreams { output, errors }
    }

    /// Writes a line of the run, and its line feed.
    ///
    /// Fails if standard output does.
    pub fn write_line(&mut self, line: &[u8]) -> io::Result<()> {
        self.output.write_all(line)?;
        self.output.write_all(b"\n")
    }

    /// Writes a line of this program, and its line feed, at once.
    ///
    /// Fails if standard output does.
    pub fn write_own_line(&mut self, line: &RunLine) -> io::Result<()> {
        self.write_line(&line.text()?)?;
        self.flush()
    }

    /// Passes on what was written to standard output.
    ///
    /// Fails if standard output does.
    pub fn flush(&mut self) -> io::Result<()> {
        self.output.flush()
    }

    /// Writes to standard error.
    pub fn write_error(&mut self, bytes: &[u8]) {
        // If nobody reads it, the program goes on as if somebody did.
        let _ = self.errors.write_all(bytes);
    }

    /// Writes a line of a program to standard error if a reader of the run would take it as one of this program. Returns true
    /// then.
    pub fn turn_away(&mut self, line: &[u8]) -> bool {
        let is_taken = is_run_line(line);
        if is_taken {
            self.write_error(&[line, b"\n"].concat());
        }
        is_taken
    }
}
