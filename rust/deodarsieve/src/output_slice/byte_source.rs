// Made by tools/erase from crates/output_slice/src/byte_source.rt. Do not edit.
//! Bytes that are read one at a time, with a count of the reads.

/// Bytes that are read one at a time, with a count of the reads.
///
/// `last_panic_head` reads its input only through this trait, so its reads can be counted.
pub trait ByteSource {
    /// Returns the number of bytes. This does not count as a read.
    fn len(&self) -> usize;

    /// Returns the number of reads so far.
    fn reads(&self) -> u128;

    /// Reads the byte at offset `at`, and raises the count by one.
    ///
    /// `at` must be less than [`ByteSource::len`], and the count less than `u128::MAX`.
    fn byte(&mut self, at: usize) -> u8;
}

/// A slice whose reads are counted.
#[derive(Clone, Debug)]
pub struct CountedBytes<'a> {
    bytes: &'a [u8],
    count: u128,
}

impl<'a> CountedBytes<'a> {
    /// Returns a source of these bytes, with a count of 0.
    #[must_use]
    pub fn new(bytes: &'a [u8]) -> Self {
        CountedBytes { bytes, count: 0 }
    }
}

impl<'a> ByteSource for CountedBytes<'a> {
    fn len(&self) -> usize {
        self.bytes.len()
    }

    fn reads(&self) -> u128 {
        self.count
    }

    fn byte(&mut self, at: usize) -> u8 {
        self.count += 1;
        self.bytes[at]
    }
}
