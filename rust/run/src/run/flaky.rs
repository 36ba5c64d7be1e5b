// Made by tools/erase from crates/test_report_run/src/flaky.rt. Do not edit.
//! The flaky tests of a suite.

mod changes;

use crate::run::suite::FlakyTest;
use std::collections::BTreeMap;

/// The tests of a suite that passed after several attempts, in the order in which they started.
#[derive(Clone, Debug)]
pub(crate) struct FlakyTests {
    /// The tests. The key of a test is the number of tests that started before it, and the number of flaky tests
    /// that ended before it.
    pub(crate) tests: BTreeMap<(usize, usize), FlakyTest>,
}
