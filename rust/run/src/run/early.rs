// Made by tools/erase from crates/test_report_run/src/early.rt. Do not edit.
//! How all that is open ends early.

use crate::events::program::ProgramEnd;
use crate::run::running::RunningTest;
use std::collections::BTreeSet;

/// What is known when all that is open in a run ends early.
#[derive(Clone, Debug)]
pub struct EarlyEnd {
    /// How the program ended whose tests run, if a line says so.
    pub end: Option<ProgramEnd>,

    /// The names of the threads that overflowed their stack. If running tests have such names, these crashed, and the
    /// other running tests were stopped.
    pub overflowed: BTreeSet<String>,

    /// The names of the threads that panicked. They count as the others do, if no running test has one of those.
    pub panicked: BTreeSet<String>,
}

/// How a suite ends early.
#[derive(Clone, Debug)]
pub(crate) struct Ending {
    /// How its program ended, if that is known.
    pub(crate) end: Option<ProgramEnd>,

    /// The names of the tests that crashed, if not all that ran did.
    pub(crate) crashed: Option<BTreeSet<String>>,
}

impl EarlyEnd {
    /// Returns an end that nothing says anything about.
    pub fn unknown() -> EarlyEnd {
        EarlyEnd {
            end: None,
            overflowed: BTreeSet::new(),
            panicked: BTreeSet::new(),
        }
    }
}

impl Ending {
    /// Returns the end of a suite that nothing says anything about.
    pub(crate) fn unknown() -> Ending {
        Ending {
            end: None,
            crashed: None,
        }
    }

    /// Returns true if a running test crashed: all did, or it has one of the names.
    pub(crate) fn crashes(&self, test: &RunningTest) -> bool {
        match &self.crashed {
            Some(names) => is_among(names, test),
            None => true,
        }
    }
}

/// Returns true if a test has one of these names.
pub(crate) fn is_among(names: &BTreeSet<String>, test: &RunningTest) -> bool {
    names.contains(test.name.as_str())
}
