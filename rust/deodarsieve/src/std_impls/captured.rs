//! Captured output as text.

use crate::output_slice::ByteSubslice;
use crate::run_events_attempts::child::ChildSingleOutput;
#[cfg(feature = "std")]
use alloc::string::String;
use bstr::ByteSlice;
use core::fmt;

/// The text of captured output, once it was asked for.
#[cfg(feature = "std")]
pub(crate) type KeptText = std::sync::OnceLock<String>;

#[cfg(feature = "std")]
impl ChildSingleOutput {
    /// Returns the captured bytes as text, with U+FFFD in place of each piece that is not UTF-8. The
    /// first call makes the text, and later ones return the same.
    ///
    /// Only with the feature `std`.
    #[must_use]
    pub fn as_str_lossy(&self) -> &str {
        self.text
            .get_or_init(|| String::from_utf8_lossy(&self.buf).into_owned())
    }
}

/// Writes the captured bytes as text.
impl fmt::Debug for ChildSingleOutput {
    fn fmt(&self, f: &mut fmt::Formatter<'_>) -> fmt::Result {
        f.debug_struct("ChildSingleOutput")
            .field("buf", &self.buf.as_bstr())
            .finish()
    }
}

/// Outputs are equal if their bytes are.
impl PartialEq for ChildSingleOutput {
    fn eq(&self, other: &Self) -> bool {
        self.buf == other.buf
    }
}

impl Eq for ChildSingleOutput {}

/// Writes the part as text.
impl fmt::Debug for ByteSubslice<'_> {
    fn fmt(&self, f: &mut fmt::Formatter<'_>) -> fmt::Result {
        f.debug_struct("ByteSubslice")
            .field("slice", &self.slice.as_bstr())
            .field("start", &self.start)
            .finish()
    }
}
