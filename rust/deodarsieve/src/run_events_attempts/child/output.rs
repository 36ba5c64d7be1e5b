// Made by tools/erase from crates/run_events_attempts/src/child/output.rt. Do not edit.
//! The captured output of a child process.

use bytes::Bytes;

/// The captured bytes of one stream, or of both streams in one. It is made from `bytes::Bytes`.
#[derive(Clone)]
pub struct ChildSingleOutput {
    pub(crate) buf: Bytes,
    #[cfg(feature = "std")]
    pub(crate) text: crate::std_impls::KeptText,
}

impl From<Bytes> for ChildSingleOutput {
    fn from(buf: Bytes) -> ChildSingleOutput {
        ChildSingleOutput {
            buf,
            #[cfg(feature = "std")]
            text: Default::default(),
        }
    }
}

impl ChildSingleOutput {
    /// Returns the captured bytes.
    #[must_use]
    pub fn buf(&self) -> &Bytes {
        &self.buf
    }
}

/// The captured output of two separate streams, as the runner gets it.
#[derive(Clone, Debug, PartialEq, Eq)]
pub struct ChildSplitOutput {
    /// Standard output, if it was captured.
    pub stdout: Option<ChildSingleOutput>,

    /// Standard error, if it was captured.
    pub stderr: Option<ChildSingleOutput>,
}

/// The captured output of a child process, as the runner gets it.
#[derive(Clone, Debug, PartialEq, Eq)]
pub enum ChildOutput {
    /// Standard output and standard error, captured separately.
    Split(ChildSplitOutput),

    /// Both streams in one, in the order in which they were written.
    Combined {
        /// The captured output.
        output: ChildSingleOutput,
    },
}

/// The captured output of a child process, as reporters get it.
#[derive(Clone, Debug, PartialEq, Eq)]
pub enum ChildOutputDescription {
    /// Standard output and standard error, captured separately.
    Split {
        /// Standard output, or `None` if it was not captured.
        stdout: Option<ChildSingleOutput>,

        /// Standard error, or `None` if it was not captured.
        stderr: Option<ChildSingleOutput>,
    },

    /// Both streams in one, in the order in which they were written.
    Combined {
        /// The captured output.
        output: ChildSingleOutput,
    },

    /// There is output, but it was not loaded.
    NotLoaded,
}

impl ChildOutputDescription {
    /// Returns true if the output was loaded.
    #[must_use]
    pub fn is_loaded(&self) -> bool {
        match self {
            ChildOutputDescription::Split { .. } | ChildOutputDescription::Combined { .. } => true,
            ChildOutputDescription::NotLoaded => false,
        }
    }

    /// Returns the number of captured bytes of standard output and of standard error, or `None` for a
    /// stream that was not captured. If both streams were captured as one, the first number is the
    /// length of all, and the second is `None`.
    ///
    /// The output must be loaded; [`ChildOutputDescription::is_loaded`] tests it.
    ///
    /// # Panics
    ///
    /// Panics if the output was not loaded.
    #[track_caller]
    #[must_use]
    pub fn stdout_stderr_len(&self) -> (Option<u64>, Option<u64>) {
        match self {
            ChildOutputDescription::Split { stdout, stderr } => {
                (captured_length(stdout), captured_length(stderr))
            }
            ChildOutputDescription::Combined { output } => (Some(output.buf().len() as u64), None),
            ChildOutputDescription::NotLoaded => {
                unreachable!("output was not loaded: `is_loaded` tests it")
            }
        }
    }
}

/// Returns the number of captured bytes of a stream.
fn captured_length(output: &Option<ChildSingleOutput>) -> Option<u64> {
    output.as_ref().map(|output| output.buf().len() as u64)
}

impl From<ChildOutput> for ChildOutputDescription {
    fn from(output: ChildOutput) -> ChildOutputDescription {
        match output {
            ChildOutput::Split(ChildSplitOutput { stdout, stderr }) => {
                ChildOutputDescription::Split { stdout, stderr }
            }
            ChildOutput::Combined { output } => ChildOutputDescription::Combined { output },
        }
    }
}
