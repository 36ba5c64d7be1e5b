// Made by tools/erase from crates/test_report_run/src/run/test_lines.rt. Do not edit.
//! The starts and the ends of tests.

use crate::events::event::{TestDetails, TestResult};
use crate::notes::note::{Contradiction, Note};
use crate::run::contradictions::push_contradiction;
use crate::run::error::{RunError, one_more};
use crate::run::run::TestRun;
use crate::run::running::RunningTest;
use crate::run::suite::OverTest;

impl TestRun {
    /// Takes the start of a test. Fails if memory runs out, or a number of the run does not fit.
    pub(crate) fn on_test_started(&mut self, name: &str) -> Result<(), RunError> {
        let number = self.count_start(name)?;
        self.running.begin(name, number)
    }

    /// Counts the start of a test in its suite. Returns the number of the suite, if it has one.
    fn count_start(&mut self, name: &str) -> Result<Option<usize>, RunError> {
        let place = self.others.event_place();
        match self.suite_of(name) {
            Some(at) => {
                let suite = &mut *self.suites.list[at];
                let number = suite.name.number;
                suite.last_event = place;
                suite.on_start(name)?;
                Ok(number)
            }
            None => {
                self.outside.last_event = place;
                self.outside.on_start(name)?;
                Ok(self.outside.name.number)
            }
        }
    }

    /// Marks the running test with this name as slow, and stores that its suite had an event. Changes nothing if there
    /// is no such test.
    pub(crate) fn on_test_slow(&mut self, name: &str) {
        if let Some(number) = self.running.mark_slow(name) {
            self.hear(number);
        }
    }

    /// Stores that the line is an event of a suite. `number` is the number of the suite, or `None` for the tests
    /// outside of a suite.
    fn hear(&mut self, number: Option<usize>) {
        let place = self.others.event_place();
        match self.suites.place_of_number(number) {
            Some(at) => self.suites.list[at].last_event = place,
            None => self.outside.last_event = place,
        }
    }

    /// Returns the position of the open suite that a starting test with this name belongs to, or `None` if no
    /// suite is open.
    fn suite_of(&self, name: &str) -> Option<usize> {
        if self.suites.list.len() == 1 {
            return Some(0);
        }
        let named = match name.split_once('$') {
            Some((key, _)) => self.suites.place_of_key(Some(key)),
            None => None,
        };
        if named.is_some() {
            return named;
        }
        self.suites
            .place_of_key(None)
            .or(self.suites.list.len().checked_sub(1))
    }

    /// Takes the end of a test.
    pub(crate) fn on_test_ended(
        &mut self,
        name: &str,
        end: TestResult,
        details: TestDetails<'_>,
        notes: &mut Vec<Note>,
    ) -> Result<(), RunError> {
        // Most ends make one note known. Room for more would be slow.
        notes.reserve_exact(1);
        self.end_test(name, end, details, notes)?;
        self.ended = one_more(self.ended)?;
        Ok(())
    }

    /// Takes the end of a test, except that the number of ended tests stays the same.
    fn end_test(
        &mut self,
        name: &str,
        end: TestResult,
        details: TestDetails<'_>,
        notes: &mut Vec<Note>,
    ) -> Result<(), RunError> {
        match self.running.end(name) {
            Some((test, attempts)) => self.count_end(test, attempts, end, details, notes),
            None => self.on_stray_end(name, end, details, notes),
        }
    }

    /// Counts the end of a test that was running.
    fn count_end(
        &mut self,
        test: RunningTest,
        attempts: usize,
        end: TestResult,
        details: TestDetails<'_>,
        notes: &mut Vec<Note>,
    ) -> Result<(), RunError> {
        let order = test.order;
        let slow = is_slow(&test, details.time, self.slow);
        let place = self.suites.place_of_number(test.suite);
        let over = OverTest {
            name: test.name,
            attempts,
            time: details.time,
            ended: Some(self.ended),
            slow,
            cancel: self.cancel,
        };
        let event = self.others.event_place();
        match place {
            Some(at) => {
                let suite = &mut *self.suites.list[at];
                suite.last_event = event;
                suite.on_end(over, order, end, details, notes)
            }
            None => {
                self.outside.last_event = event;
                self.outside.on_end(over, order, end, details, notes)
            }
        }
    }

    /// Takes the end of a test that is not running. The test is counted unless it passed. The end is a
    /// contradiction unless the test was ignored.
    fn on_stray_end(
        &mut self,
        name: &str,
        end: TestResult,
        details: TestDetails<'_>,
        notes: &mut Vec<Note>,
    ) -> Result<(), RunError> {
        match end {
            TestResult::Ok => {
                push_stray_end(name, end, notes);
                Ok(())
            }
            TestResult::Failed => {
                self.count_stray(name, end, details, notes)?;
                push_stray_end(name, end, notes);
                Ok(())
            }
            TestResult::Ignored => self.count_stray(name, end, details, notes),
        }
    }

    /// Counts the end of a test that is not running.
    fn count_stray(
        &mut self,
        name: &str,
        end: TestResult,
        details: TestDetails<'_>,
        notes: &mut Vec<Note>,
    ) -> Result<(), RunError> {
        let slow = is_long(details.time, self.slow);
        let test = OverTest {
            name: String::from(name),
            attempts: 1,
            time: details.time,
            ended: Some(self.ended),
            slow,
            cancel: self.cancel,
        };
        let event = self.others.event_place();
        match self.suite_of(name) {
            Some(at) => {
                let suite = &mut *self.suites.list[at];
                suite.last_event = event;
                suite.on_stray_end(test, end, details, notes)
            }
            None => {
                self.outside.last_event = event;
                self.outside.on_stray_end(test, end, details, notes)
            }
        }
    }
}

/// Returns true if a running test that ends with this time is slow. `least` is the least time of a slow test.
fn is_slow(test: &RunningTest, time: Option<u64>, least: u64) -> bool {
    test.slow || is_long(time, least)
}

/// Returns true if a test with this time is slow. `least` is the least time of a slow test.
fn is_long(time: Option<u64>, least: u64) -> bool {
    match time {
        Some(time) => least <= time,
        None => false,
    }
}

/// Adds the contradiction of a test that ends and is not running.
fn push_stray_end(name: &str, end: TestResult, notes: &mut Vec<Note>) {
    let name = String::from(name);
    push_contradiction(Contradiction::StrayEnd { name, result: end }, notes);
}
