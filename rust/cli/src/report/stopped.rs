//! The tests that were stopped.

use crate::report::suite_key::SuiteKey;
use crate::report::words::{shown_name, suite_of};
use deodarsieve_run::{Note, TestNote, TestOutcome};
use std::collections::BTreeMap;
use std::rc::Rc;

/// The tests that notes say were stopped, by their suites.
pub(crate) struct StoppedTests<'a> {
    tests: BTreeMap<SuiteKey, Vec<&'a TestNote>>,
}

impl<'a> StoppedTests<'a> {
    /// Returns the stopped tests among notes.
    pub(crate) fn of(notes: &'a [Note]) -> StoppedTests<'a> {
        let mut tests: BTreeMap<_, Vec<_>> = BTreeMap::new();
        for note in notes {
            if let Note::Test(test) = note
                && let TestOutcome::Stopped = test.outcome
            {
                let suite = SuiteKey::of(test.suite.as_ref());
                tests.entry(suite).or_default().push(test);
            }
        }
        StoppedTests { tests }
    }

    /// Returns those of a suite, or of none.
    pub(crate) fn of_suite(&self, suite: Option<&Rc<String>>) -> &[&'a TestNote] {
        let tests = self.tests.get(&SuiteKey::of(suite));
        tests.map_or(&[], Vec::as_slice)
    }
}

/// Returns what happened to tests that were stopped, a line for each, or `None` if there are none. It is not escaped.
pub(crate) fn stopped_lines(tests: &[&TestNote]) -> Option<String> {
    let lines: Vec<_> = tests
        .iter()
        .map(|test| format!("{} {}", shown_name(test), stopped_words(test)))
        .collect();
    (!lines.is_empty()).then(|| lines.join("\n"))
}

/// Returns what happened to a test that was stopped. It is not escaped.
pub(crate) fn stopped_words(test: &TestNote) -> String {
    match test.cancel {
        Some(_) => "was stopped".to_string(),
        None => format!("ran when {} ended", suite_of(test).unwrap_or("its program")),
    }
}
