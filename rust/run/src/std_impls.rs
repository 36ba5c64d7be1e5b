//! Traits of `std` for the types of this crate.

use crate::programs::run::ProgramRun;
use crate::run::error::RunError;
use crate::run::run::TestRun;
use crate::run::suite_names::SuiteNames;
use deodarsieve::CounterFull;
use std::error::Error;
use std::fmt;

impl fmt::Display for RunError {
    fn fmt(&self, f: &mut fmt::Formatter<'_>) -> fmt::Result {
        match self {
            RunError::CounterFull => CounterFull.fmt(f),
        }
    }
}

impl Error for RunError {}

/// Writes the numbers of the run up to now.
impl fmt::Debug for TestRun {
    fn fmt(&self, f: &mut fmt::Formatter<'_>) -> fmt::Result {
        f.debug_struct("TestRun")
            .field("numbers", &self.numbers())
            .finish_non_exhaustive()
    }
}

/// Writes the numbers of the run up to now.
impl fmt::Debug for ProgramRun {
    fn fmt(&self, f: &mut fmt::Formatter<'_>) -> fmt::Result {
        f.debug_struct("ProgramRun")
            .field("numbers", &self.run().numbers())
            .finish_non_exhaustive()
    }
}

impl fmt::Debug for SuiteNames {
    fn fmt(&self, f: &mut fmt::Formatter<'_>) -> fmt::Result {
        f.debug_struct("SuiteNames").finish_non_exhaustive()
    }
}

impl Default for SuiteNames {
    fn default() -> SuiteNames {
        SuiteNames::new()
    }
}
