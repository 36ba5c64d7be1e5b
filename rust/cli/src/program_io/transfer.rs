// Made by tools/erase from crates/program_io/src/transfer.rt. Do not edit.
//! Reading all bytes of a source, and writing all of a text.

use crate::program_io::device::{Sink, Source};
use crate::program_io::fault::DeviceFault;

/// Returns all bytes that are left in a source, which must not have failed before.
///
/// - [`DeviceFault::Read`] if and only if the source fails.
pub fn read_all<R: Source>(source: &mut R) -> Result<Vec<u8>, DeviceFault> {
    let mut bytes = Vec::new();
    let mut chunk = [0u8; 4096];
    loop {
        let n = match source.read(&mut chunk) {
            Ok(n) => n,
            Err(_) => return Err(DeviceFault::Read),
        };
        if n == 0 {
            return Ok(bytes);
        }
        bytes.extend_from_slice(&chunk[..n]);
    }
}

/// Writes all of `text` and flushes the sink, which must not have failed before.
///
/// # Errors
///
/// The error is [`DeviceFault::Write`] if and only if the sink fails. Then some first bytes of `text`
/// were written, and the sink is not flushed.
pub fn write_all<W: Sink>(sink: &mut W, text: &[u8]) -> Result<(), DeviceFault> {
    let mut rest = text;
    while !rest.is_empty() {
        match sink.write(rest) {
            Ok(n) => rest = &rest[n..],
            Err(_) => return Err(DeviceFault::Write),
        }
    }
    match sink.flush() {
        Ok(()) => Ok(()),
        Err(_) => Err(DeviceFault::Write),
    }
}
