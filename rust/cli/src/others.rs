//! The lines of a run that are no events, which the program passes on.

use crate::command::repeated::Repeated;
use crate::program::KeepError;
use std::io::{self, Write};

/// A writer of these lines. Once it has failed it drops them.
pub struct Others<W> {
    writer: KeepError<W>,

    /// True if the lines are written, and false if they are dropped.
    pub are_wanted: bool,

    /// The lines that were written before, and are dropped if they come again. The report writes each line in one call.
    pub repeated: Repeated,

    has_failed: bool,
}

impl<W> Others<W> {
    /// Returns a writer that has not failed, and drops the lines until they are wanted.
    pub fn new(writer: W) -> Others<W> {
        Others {
            writer: KeepError::new(writer),
            are_wanted: false,
            repeated: Repeated::default(),
            has_failed: false,
        }
    }

    /// Returns true if a line could not be written.
    pub fn has_failed(&self) -> bool {
        self.has_failed
    }
}

impl<W: Write> Write for Others<W> {
    fn write(&mut self, buffer: &[u8]) -> io::Result<usize> {
        if !self.are_wanted || self.has_failed || self.repeated.repeats(buffer) {
            return Ok(buffer.len());
        }
        let written = self.writer.write(buffer);
        self.has_failed = !matches!(written, Ok(1..));
        written
    }

    fn flush(&mut self) -> io::Result<()> {
        Ok(())
    }
}
