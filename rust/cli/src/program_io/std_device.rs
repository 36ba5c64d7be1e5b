// Made by tools/erase from crates/program_io/src/std_device.rt. Do not edit.
//! Readers and writers of `std` as sources and sinks.

use crate::program_io::device::{DeviceFailed, Sink, Source};
use std::io::{Read, Write};

/// A reader of `std` as a source. Every error of the reader is a failure; an interrupted read is not
/// tried again.
pub struct StdSource<R> {
    reader: R,
    failed: bool,
}

impl<R: Read> StdSource<R> {
    /// Returns a source over this reader. Nothing is read.
    pub fn new(reader: R) -> StdSource<R> {
        StdSource {
            reader,
            failed: false,
        }
    }
}

impl<R: Read> Source for StdSource<R> {
    fn has_failed(&self) -> bool {
        self.failed
    }

    /// Reads by one read of the reader.
    fn read(&mut self, buffer: &mut [u8]) -> Result<usize, DeviceFailed> {
        match self.reader.read(buffer) {
            Ok(n) => Ok(n),
            Err(_) => {
                self.failed = true;
                Err(DeviceFailed)
            }
        }
    }
}

/// A writer of `std` as a sink. Every error of the writer is a failure, and so is a write of no byte;
/// an interrupted write is not tried again.
pub struct StdSink<W> {
    writer: W,
    failed: bool,
    flushed: bool,
}

impl<W: Write> StdSink<W> {
    /// Returns a sink over this writer. Nothing is written.
    pub fn new(writer: W) -> StdSink<W> {
        StdSink {
            writer,
            failed: false,
            flushed: false,
        }
    }
}

impl<W: Write> Sink for StdSink<W> {
    fn has_failed(&self) -> bool {
        self.failed
    }

    /// Writes by one write of the writer.
    fn write(&mut self, buffer: &[u8]) -> Result<usize, DeviceFailed> {
        self.flushed = false;
        match self.writer.write(buffer) {
            Ok(n) if n > 0 => Ok(n),
            _ => {
                self.failed = true;
                Err(DeviceFailed)
            }
        }
    }

    /// Flushes the writer.
    fn flush(&mut self) -> Result<(), DeviceFailed> {
        match self.writer.flush() {
            Ok(()) => {
                self.flushed = true;
                Ok(())
            }
            Err(_) => {
                self.failed = true;
                self.flushed = false;
                Err(DeviceFailed)
            }
        }
    }
}
