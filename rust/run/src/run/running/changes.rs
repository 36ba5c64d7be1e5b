// Made by tools/erase from crates/test_report_run/src/running/changes.rt. Do not edit.
//! What starts and ends running tests.

use crate::run::early::is_among;
use crate::run::error::{RunError, one_more};
use crate::run::running::names::NameOrders;
use crate::run::running::{Running, RunningTest};
use std::collections::{BTreeMap, BTreeSet};

/// The most attempts that a name may end with.
const MOST_ATTEMPTS: usize = 1_000;

impl Running {
    /// Returns no tests.
    pub fn new() -> Running {
        Running {
            tests: BTreeMap::new(),
            names: NameOrders::new(),
            suites: BTreeSet::new(),
            started: 0,
        }
    }

    /// Adds a test that starts. `suite` is the number of its suite, or `None` outside of a suite. After an error
    /// tests may be missing. Fails if memory runs out, or the number of tests that started does not fit.
    pub fn begin(&mut self, name: &str, suite: Option<usize>) -> Result<(), RunError> {
        let order = self.started;
        let started = one_more(order)?;
        let test = RunningTest {
            name: String::from(name),
            suite,
            order,
            slow: false,
        };
        let mut running = std::mem::replace(self, Running::new());
        running.names.insert(name, order);
        running.suites.insert((suite, order));
        running.tests.insert(order, test);
        running.started = started;
        *self = running;
        Ok(())
    }

    /// Removes the test that ends, and returns it with the number of its attempts. `written` is the name in
    /// the line of its end. Returns `None` if no such test is running.
    pub fn end(&mut self, written: &str) -> Option<(RunningTest, usize)> {
        let (order, attempts) = self.order_of_end(written)?;
        let test = self.remove(order)?;
        Some((test, attempts))
    }

    /// Marks the running test that a line calls slow, and returns the number of its suite, which is `None` outside of
    /// a suite. `written` is the name in the line. Returns `None` if no such test is running.
    pub(crate) fn mark_slow(&mut self, written: &str) -> Option<Option<usize>> {
        let (order, _) = self.order_of_end(written)?;
        self.mark(order)
    }

    /// Returns the number of tests that started.
    pub(crate) fn started(&self) -> usize {
        self.started
    }

    /// Returns the test that started first.
    pub(crate) fn first(&self) -> Option<&RunningTest> {
        let (_, test) = self.tests.first_key_value()?;
        Some(test)
    }

    /// Returns true if a running test has one of these names.
    pub(crate) fn has_one_of(&self, names: &BTreeSet<String>) -> bool {
        self.tests.values().any(|test| is_among(names, test))
    }

    /// Removes the tests of a suite, and returns them in the order in which they started.
    pub(crate) fn take_suite(&mut self, suite: Option<usize>) -> Vec<RunningTest> {
        let mut taken = Vec::new();
        while let Some(test) = self.remove_of_suite(suite) {
            taken.push(test);
        }
        taken
    }

    /// Returns the number of the test that ends with this written name, and the number of its attempts.
    fn order_of_end(&self, written: &str) -> Option<(usize, usize)> {
        match self.names.first(written) {
            Some(order) => Some((order, 1)),
            None => {
                let (name, attempts) = name_and_attempts(written)?;
                let order = self.names.first(name)?;
                Some((order, attempts))
            }
        }
    }

    /// Marks the test with this number as slow, and returns the number of its suite.
    fn mark(&mut self, order: usize) -> Option<Option<usize>> {
        let test = self.tests.get_mut(&order)?;
        test.slow = true;
        Some(test.suite)
    }

    /// Removes the first test of a suite, and returns it.
    fn remove_of_suite(&mut self, suite: Option<usize>) -> Option<RunningTest> {
        let order = self.first_of_suite(suite)?;
        self.remove(order)
    }

    /// Returns the number of the first test of a suite.
    fn first_of_suite(&self, suite: Option<usize>) -> Option<usize> {
        match self.suites.range((suite, 0)..).next() {
            Some((found, order)) if *found == suite => Some(*order),
            _ => None,
        }
    }

    /// Removes the test with this number, and returns it.
    fn remove(&mut self, order: usize) -> Option<RunningTest> {
        let test = self.tests.remove(&order)?;
        self.names.remove(test.name.as_str(), order);
        self.suites.remove(&(test.suite, order));
        Some(test)
    }
}

/// Splits a name that ends with `#` and a number of attempts into the name of the test and the number.
fn name_and_attempts(written: &str) -> Option<(&str, usize)> {
    let (name, digits) = written.rsplit_once('#')?;
    let attempts = number_of_attempts(digits)?;
    Some((name, attempts))
}

/// Parses a number of attempts, which is from 2 to 1,000 and has neither a sign nor a leading zero.
fn number_of_attempts(digits: &str) -> Option<usize> {
    if digits.starts_with('+') || digits.starts_with('0') {
        return None;
    }
    let attempts: usize = digits.parse().ok()?;
    if 2 <= attempts && attempts <= MOST_ATTEMPTS {
        Some(attempts)
    } else {
        None
    }
}
