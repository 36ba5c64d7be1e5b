// Made by tools/erase from crates/program_io/src/device.rt. Do not edit.
//! Sources, from which bytes are read, and sinks, to which bytes are written.

/// A read, a write or a flush failed.
#[derive(Clone, Copy, Debug, PartialEq, Eq)]
pub struct DeviceFailed;

/// Bytes that can be read.
pub trait Source {
    /// Returns true if a read has failed.
    fn has_failed(&self) -> bool;

    /// Reads some bytes into the front of `buffer`, and returns their number, which is 0 only at
    /// the end of the source.
    ///
    /// `buffer` must not be empty. After [`DeviceFailed`] the source has failed, and it is not known
    /// which bytes are left.
    fn read(&mut self, buffer: &mut [u8]) -> Result<usize, DeviceFailed>;
}

/// Somewhere to write bytes.
pub trait Sink {
    /// Returns true if a write or a flush has failed.
    fn has_failed(&self) -> bool;

    /// Writes the first bytes of `buffer`, at least one, and returns how many.
    ///
    /// `buffer` must not be empty. After [`DeviceFailed`] the sink has failed, and no byte was
    /// written.
    fn write(&mut self, buffer: &[u8]) -> Result<usize, DeviceFailed>;

    /// Passes on all bytes that were written and are still in a buffer of the sink.
    ///
    /// After [`DeviceFailed`] the sink has failed, and is not flushed.
    fn flush(&mut self) -> Result<(), DeviceFailed>;
}
