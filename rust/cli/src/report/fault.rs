//! The faults that `test-report` ends with.

use deodarsieve_run::RunError;
use std::{fmt, io};

/// The reason why there is no complete report. It is displayed as a few words, such as `read failed`.
#[derive(Clone, Copy, Debug, PartialEq, Eq)]
pub enum Fault {
    /// A read failed.
    Read,

    /// A write or a flush failed.
    Write,

    /// A number does not fit its counter.
    CounterFull,
}

impl Fault {
    /// Returns the exit status of the program, which is 3 for every fault.
    pub fn status(&self) -> u8 {
        3
    }
}

impl From<io::Error> for Fault {
    /// Returns the fault of a write.
    fn from(_: io::Error) -> Fault {
        Fault::Write
    }
}

impl From<RunError> for Fault {
    fn from(error: RunError) -> Fault {
        match error {
            RunError::CounterFull => Fault::CounterFull,
        }
    }
}

impl fmt::Display for Fault {
    fn fmt(&self, f: &mut fmt::Formatter<'_>) -> fmt::Result {
        match self {
            Fault::Read => f.write_str("read failed"),
            Fault::Write => f.write_str("write failed"),
            Fault::CounterFull => f.write_str("a number does not fit its counter"),
        }
    }
}
