// Made by tools/erase from crates/output_slice/src/subslice.rt. Do not edit.
//! Parts of captured output.

use bstr::ByteSlice;
use core::fmt;
use core::num::NonZero;

/// A part of some bytes, and its offset in them.
#[derive(Clone, Copy, PartialEq, Eq)]
pub struct ByteSubslice<'a> {
    /// The bytes of the part.
    pub slice: &'a [u8],

    /// The offset of the part in the bytes that it was taken from.
    pub start: usize,
}

impl<'a> ByteSubslice<'a> {
    /// The first bytes of the part, at most `limit`.
    fn capped(self, limit: NonZero<usize>) -> ByteSubslice<'a> {
        let length = self.slice.len().min(limit.get());
        ByteSubslice {
            slice: &self.slice[..length],
            start: self.start,
        }
    }
}

/// The part of a test's output that explains its failure.
#[derive(Clone, Copy, Debug, PartialEq, Eq)]
pub enum TestOutputErrorSlice<'a> {
    /// The message of the last panic and what follows it, with the line before it if that begins with
    /// `Error:`.
    PanicMessage {
        /// A part of standard error.
        stderr_subslice: ByteSubslice<'a>,
    },

    /// The error that a test which returns a `Result` printed, from `Error: ` on, and what follows it.
    ErrorStr {
        /// A part of standard error.
        stderr_subslice: ByteSubslice<'a>,
    },

    /// The line which notes that a test with `should_panic` did not panic.
    ShouldPanic {
        /// A part of standard output.
        stdout_subslice: ByteSubslice<'a>,
    },
}

impl<'a> TestOutputErrorSlice<'a> {
    /// Returns the part if it is from standard error: a panic message or an error.
    #[must_use]
    pub fn stderr_subslice(&self) -> Option<ByteSubslice<'a>> {
        match self {
            Self::PanicMessage { stderr_subslice } | Self::ErrorStr { stderr_subslice } => {
                Some(*stderr_subslice)
            }
            Self::ShouldPanic { .. } => None,
        }
    }

    /// Returns the part if it is from standard output: the note that a test did not panic.
    #[must_use]
    pub fn stdout_subslice(&self) -> Option<ByteSubslice<'a>> {
        match self {
            Self::ShouldPanic { stdout_subslice } => Some(*stdout_subslice),
            Self::PanicMessage { .. } | Self::ErrorStr { .. } => None,
        }
    }

    /// Returns the part, whichever stream it is from. It is never `None`. Use it for output whose two
    /// streams were captured as one.
    #[must_use]
    pub fn combined_subslice(&self) -> Option<ByteSubslice<'a>> {
        Some(self.part())
    }

    /// The same kind with the first bytes of its part, at most `limit`.
    pub(crate) fn capped(self, limit: NonZero<usize>) -> TestOutputErrorSlice<'a> {
        match self {
            Self::PanicMessage { stderr_subslice } => Self::PanicMessage {
                stderr_subslice: stderr_subslice.capped(limit),
            },
            Self::ErrorStr { stderr_subslice } => Self::ErrorStr {
                stderr_subslice: stderr_subslice.capped(limit),
            },
            Self::ShouldPanic { stdout_subslice } => Self::ShouldPanic {
                stdout_subslice: stdout_subslice.capped(limit),
            },
        }
    }

    fn part(&self) -> ByteSubslice<'a> {
        match self {
            Self::PanicMessage { stderr_subslice } | Self::ErrorStr { stderr_subslice } => {
                *stderr_subslice
            }
            Self::ShouldPanic { stdout_subslice } => *stdout_subslice,
        }
    }
}

/// Writes the part as text, with U+FFFD in place of each piece that is not UTF-8.
impl<'a> fmt::Display for TestOutputErrorSlice<'a> {
    fn fmt(&self, f: &mut fmt::Formatter<'_>) -> fmt::Result {
        write!(f, "{}", self.part().slice.as_bstr())
    }
}
