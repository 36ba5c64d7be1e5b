// Made by tools/erase from crates/program_io/src/fault.rt. Do not edit.
//! The faults of reading and writing.

use std::fmt;

/// Why a source was not read to its end, or a text not written whole. It is displayed as a few words,
/// such as `read failed`.
#[derive(Clone, Copy, Debug, PartialEq, Eq)]
pub enum DeviceFault {
    /// A read failed.
    Read,

    /// A write or a flush failed.
    Write,
}

impl fmt::Display for DeviceFault {
    fn fmt(&self, f: &mut fmt::Formatter<'_>) -> fmt::Result {
        match self {
            DeviceFault::Read => f.write_str("read failed"),
            DeviceFault::Write => f.write_str("write failed"),
        }
    }
}
