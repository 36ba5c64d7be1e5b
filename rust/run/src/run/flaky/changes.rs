// Made by tools/erase from crates/test_report_run/src/flaky/changes.rt. Do not edit.
//! What adds flaky tests.

use crate::run::flaky::FlakyTests;
use crate::run::suite::FlakyTest;
use std::collections::BTreeMap;

impl FlakyTests {
    /// Returns no tests.
    pub(crate) fn new() -> FlakyTests {
        FlakyTests {
            tests: BTreeMap::new(),
        }
    }

    /// Returns the number of tests.
    pub(crate) fn len(&self) -> usize {
        self.tests.len()
    }

    /// Adds a test.
    pub(crate) fn insert(&mut self, test: FlakyTest) {
        let place = (test.order, self.tests.len());
        self.tests.insert(place, test);
    }
}
