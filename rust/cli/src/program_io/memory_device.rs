// Made by tools/erase from crates/program_io/src/memory_device.rt. Do not edit.
//! A source and a sink over byte slices, which fail at a chosen call. They are for tests.

use crate::program_io::device::{DeviceFailed, Sink, Source};

/// Returns the number of calls before the one that fails, after one more call.
fn one_fewer(calls: Option<usize>) -> Option<usize> {
    match calls {
        None | Some(0) => None,
        Some(n) => Some(n - 1),
    }
}

/// A byte slice as a source.
#[derive(Clone)]
pub struct MemorySource<'a> {
    bytes: &'a [u8],
    calls_left: Option<usize>,
    failed: bool,
}

impl<'a> MemorySource<'a> {
    /// Returns a source of these bytes. The read number `fail_at`, counted from 0, will fail. With
    /// `None` no read will.
    pub fn new(bytes: &'a [u8], fail_at: Option<usize>) -> Self {
        MemorySource {
            bytes,
            calls_left: fail_at,
            failed: false,
        }
    }
}

impl Source for MemorySource<'_> {
    fn has_failed(&self) -> bool {
        self.failed
    }

    /// Reads as many bytes as are left and fit `buffer`. After a failure the same bytes are left.
    fn read(&mut self, buffer: &mut [u8]) -> Result<usize, DeviceFailed> {
        let fails = self.calls_left == Some(0);
        self.calls_left = one_fewer(self.calls_left);
        if fails {
            self.failed = true;
            return Err(DeviceFailed);
        }
        let n = self.bytes.len().min(buffer.len());
        let (taken, rest) = self.bytes.split_at(n);
        buffer[..n].copy_from_slice(taken);
        self.bytes = rest;
        Ok(n)
    }
}

/// A byte slice as a sink.
pub struct MemorySink<'a> {
    buffer: &'a mut [u8],
    len: usize,
    calls_left: Option<usize>,
    failed: bool,
    flushed: bool,
}

impl<'a> MemorySink<'a> {
    /// Returns a sink that writes into `buffer`. The write or flush number `fail_at`, counted from 0,
    /// will fail. With `None` a write fails only if `buffer` is full.
    pub fn new(buffer: &'a mut [u8], fail_at: Option<usize>) -> Self {
        MemorySink {
            buffer,
            len: 0,
            calls_left: fail_at,
            failed: false,
            flushed: false,
        }
    }

    /// Returns the bytes that were written.
    pub fn written(&self) -> &[u8] {
        &self.buffer[..self.len]
    }

    /// Counts a call, and returns true if it fails.
    fn call_fails(&mut self) -> bool {
        let fails = self.calls_left == Some(0);
        self.calls_left = one_fewer(self.calls_left);
        self.failed |= fails;
        self.flushed = false;
        fails
    }
}

impl Sink for MemorySink<'_> {
    fn has_failed(&self) -> bool {
        self.failed
    }

    /// Writes as many bytes of `buffer` as there is room for. It also fails if there is no room.
    fn write(&mut self, buffer: &[u8]) -> Result<usize, DeviceFailed> {
        let free = self.buffer.len() - self.len;
        if self.call_fails() || free == 0 {
            self.failed = true;
            return Err(DeviceFailed);
        }
        let n = free.min(buffer.len());
        self.buffer[self.len..self.len + n].copy_from_slice(&buffer[..n]);
        self.len += n;
        Ok(n)
    }

    /// As [`Sink::flush`]. It fails if and only if this call is the one that was chosen to fail.
    fn flush(&mut self) -> Result<(), DeviceFailed> {
        if self.call_fails() {
            return Err(DeviceFailed);
        }
        self.flushed = true;
        Ok(())
    }
}
