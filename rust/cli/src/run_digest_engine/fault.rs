// Made by tools/erase from crates/run_digest_engine/src/fault.rt. Do not edit.
//! The faults that `run-digest` ends with.

use crate::program_io::fault::DeviceFault;
use std::fmt;

/// Why `run-digest` ends without a result. It is displayed as the line that the program writes to
/// standard error, without a line feed.
#[derive(Clone, Copy, Debug, PartialEq, Eq)]
pub enum Fault {
    /// A line of the input is not one of those that are allowed there.
    BadLine {
        /// The number of the first such line, counted from 1.
        number: usize,
    },

    /// The command-line arguments do not name a command.
    BadWord,

    /// A read failed.
    Read,

    /// A write or a flush failed.
    Write,
}

impl Fault {
    /// Returns the exit status of the program: 2 for a bad line or bad arguments, and 3 for any other
    /// fault.
    pub fn status(&self) -> u8 {
        match self {
            Fault::BadLine { .. } | Fault::BadWord => 2,
            Fault::Read | Fault::Write => 3,
        }
    }
}

impl From<DeviceFault> for Fault {
    fn from(fault: DeviceFault) -> Fault {
        match fault {
            DeviceFault::Read => Fault::Read,
            DeviceFault::Write => Fault::Write,
        }
    }
}

impl fmt::Display for Fault {
    fn fmt(&self, f: &mut fmt::Formatter<'_>) -> fmt::Result {
        let text = match self {
            Fault::BadLine { number } => return write!(f, "line {number}: bad line"),
            Fault::BadWord => "usage: run-digest extract|count",
            Fault::Read => "read failed",
            Fault::Write => "write failed",
        };
        f.write_str(text)
    }
}
