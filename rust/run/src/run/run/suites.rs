// Made by tools/erase from crates/test_report_run/src/run/suites.rt. Do not edit.
//! The first and the last lines of suites.

use crate::events::event::{SuiteEnd, SuiteKey};
use crate::notes::note::{Contradiction, Note};
use crate::run::contradictions::push_contradiction;
use crate::run::early::Ending;
use crate::run::error::RunError;
use crate::run::run::TestRun;
use crate::run::suite::Suite;

impl TestRun {
    /// Takes the first line of a suite.
    pub(crate) fn on_suite_started(
        &mut self,
        key: Option<SuiteKey<'_>>,
        test_count: Option<u64>,
        notes: &mut Vec<Note>,
    ) -> Result<(), RunError> {
        let key = key_text(key);
        let test_count = wide(test_count);
        match self.suites.place_of_key(key.as_deref()) {
            Some(at) => self.start_again(key, test_count, at, notes),
            None => self.open(key, test_count),
        }
    }

    /// Takes the first line of a suite while a suite with the same key, or also without a key, is open at a
    /// position. With a key, the line is added to the open suite. Without a key, the open suite ends early
    /// and another one starts.
    fn start_again(
        &mut self,
        key: Option<String>,
        test_count: Option<u128>,
        at: usize,
        notes: &mut Vec<Note>,
    ) -> Result<(), RunError> {
        if key.is_some() {
            self.join(test_count, at)
        } else {
            let suite = self.take_out(at);
            self.end_early(&Ending::unknown(), suite, notes)?;
            self.open(key, test_count)
        }
    }

    /// Adds a first line to the open suite at a position.
    fn join(&mut self, test_count: Option<u128>, at: usize) -> Result<(), RunError> {
        let place = self.others.event_place();
        let suite = &mut *self.suites.list[at];
        suite.last_event = place;
        suite.join(test_count)
    }

    /// Removes the open suite at a position, and returns it.
    fn take_out(&mut self, at: usize) -> Suite {
        self.suites.remove(at)
    }

    /// Opens a suite with a key that no open suite has, or without a key if all open suites have one.
    fn open(&mut self, key: Option<String>, test_count: Option<u128>) -> Result<(), RunError> {
        let heading = match &self.heading {
            Some(heading) => Some(heading.clone()),
            None => None,
        };
        self.suites.open(key, heading, test_count, &self.others)
    }

    /// Takes a last line of a suite.
    pub(crate) fn on_suite_ended(
        &mut self,
        end: SuiteEnd<'_>,
        notes: &mut Vec<Note>,
    ) -> Result<(), RunError> {
        let key = key_text(end.key);
        match self.suites.place_of_key(key.as_deref()) {
            Some(at) => self.end_at(end, at, notes),
            None => {
                push_stray_end(key, end, notes);
                Ok(())
            }
        }
    }

    /// Takes a last line of the open suite at a position. Fails if memory runs out, or a number of the suite does not
    /// fit.
    fn end_at(
        &mut self,
        end: SuiteEnd<'_>,
        at: usize,
        notes: &mut Vec<Note>,
    ) -> Result<(), RunError> {
        if self.add_last_line(end, at)? {
            let mut suite = self.take_out(at);
            self.end_suite(&mut suite, notes)
        } else {
            Ok(())
        }
    }

    /// Adds a last line to the open suite at a position. Returns true if the suite is over.
    fn add_last_line(&mut self, end: SuiteEnd<'_>, at: usize) -> Result<bool, RunError> {
        let place = self.others.event_place();
        let suite = &mut *self.suites.list[at];
        suite.last_event = place;
        suite.on_last_line(end)
    }

    /// Ends a suite that has its last line.
    fn end_suite(&mut self, suite: &mut Suite, notes: &mut Vec<Note>) -> Result<(), RunError> {
        let left = self.running.take_suite(suite.name.number);
        suite.cancel = self.cancel;
        suite.end(left, notes)
    }

    /// Ends a suite that has no last line.
    pub(crate) fn end_early(
        &mut self,
        how: &Ending,
        mut suite: Suite,
        notes: &mut Vec<Note>,
    ) -> Result<(), RunError> {
        let left = self.running.take_suite(suite.name.number);
        suite.cancel = self.cancel;
        suite.end_early(&self.others, how, left, notes)
    }
}

/// Returns the text of a key.
fn key_text(key: Option<SuiteKey<'_>>) -> Option<String> {
    match key {
        Some(key) => Some(key.to_string()),
        None => None,
    }
}

/// Returns a number of tests as a number to which others can be added.
fn wide(count: Option<u64>) -> Option<u128> {
    count.map(u128::from)
}

/// Adds a contradiction if the last line of a suite that is not open counts tests. `key` is the key in the line.
fn push_stray_end(key: Option<String>, end: SuiteEnd<'_>, notes: &mut Vec<Note>) {
    if counts_tests(end) {
        let failed_verdict = end.failed_verdict;
        push_contradiction(
            Contradiction::StraySuiteEnd {
                key,
                failed_verdict,
            },
            notes,
        );
    }
}

/// Returns true if a last line says that the suite failed, or counts a test that ran.
fn counts_tests(end: SuiteEnd<'_>) -> bool {
    end.failed_verdict
        || is_above_0(end.passed)
        || is_above_0(end.measured)
        || is_above_0(end.failed)
}

/// Returns true if a number is known and above 0.
fn is_above_0(count: Option<u64>) -> bool {
    match count {
        Some(count) => count > 0,
        None => false,
    }
}
