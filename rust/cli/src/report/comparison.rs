//! The comparison of a run with an earlier one: which failures are new, and which are fixed.

use crate::report::entry::Entry;
use crate::report::words::{shown_name, suite_of};
use deodarsieve_run::{Note, TestNote, TestOutcome};
use serde::Serialize;
use serde::ser::{SerializeStruct, Serializer};
use std::collections::BTreeMap;

/// Whether a test passed or failed. If several tests have one name, a failure counts.
#[derive(Clone, Copy, Debug, PartialEq, Eq, PartialOrd, Ord)]
pub enum TestResult {
    Passed,
    Failed,
}

impl TestResult {
    /// Returns the result of a test, or `None` if it has none: it was skipped or stopped.
    fn of(test: &TestNote) -> Option<TestResult> {
        match test.outcome {
            TestOutcome::Passed { .. } => Some(TestResult::Passed),
            TestOutcome::Failed(_) => Some(TestResult::Failed),
            TestOutcome::Skipped { .. } | TestOutcome::Stopped => None,
        }
    }
}

/// The results of a test in both runs.
#[derive(Clone, Copy, Debug, PartialEq, Eq)]
struct Results {
    before: TestResult,

    /// The result in this run, if it is known.
    now: Option<TestResult>,
}

/// Values of tests, by the names of their suites and of the tests as they are shown.
type ByName<T> = BTreeMap<Option<String>, BTreeMap<String, T>>;

/// The results of an earlier run.
#[derive(Debug, Default, PartialEq, Eq)]
pub struct EarlierRun(ByName<Results>);

impl EarlierRun {
    /// Adds the result of a test.
    pub fn add(&mut self, suite: Option<&str>, test: String, before: TestResult) {
        let tests = self.0.entry(suite.map(str::to_string)).or_default();
        let results = tests.entry(test).or_insert(Results { before, now: None });
        results.before = results.before.max(before);
    }

    /// Adds what a note says of a test.
    pub fn on_note(&mut self, note: &Note) {
        match note {
            Note::Test(test) => {
                if let Some(result) = TestResult::of(test) {
                    self.add(suite_of(test), shown_name(test).to_string(), result);
                }
            }
            Note::Flaky(_) | Note::Contradiction(_) | Note::NotRun(_) | Note::Suite(_) => {}
        }
    }
}

/// A run that is compared with an earlier one. Tests that have a result in only one of them do not count.
pub(crate) struct Comparison(ByName<Results>);

/// A test of a comparison.
#[derive(Serialize)]
pub(crate) struct ComparedTest<'a> {
    #[serde(skip_serializing_if = "Option::is_none")]
    pub(crate) suite: Option<&'a str>,
    pub(crate) name: &'a str,
}

impl Comparison {
    /// Returns the comparison of a run without entries.
    pub(crate) fn with(earlier: EarlierRun) -> Comparison {
        Comparison(earlier.0)
    }

    /// Takes an entry of the run.
    pub(crate) fn on_entry(&mut self, entry: &Entry<'_>) {
        match entry {
            Entry::Passed(passed) => self.on_result(passed.test, TestResult::Passed),
            Entry::Failed(failure) => self.on_result(failure.test, TestResult::Failed),
            Entry::Flaky(_)
            | Entry::Skipped(_)
            | Entry::Stopped(_)
            | Entry::Problem(_)
            | Entry::Suite(_)
            | Entry::FailedTarget(_)
            | Entry::CompilerError(_) => {}
        }
    }

    /// Takes the result of a test.
    fn on_result(&mut self, test: &TestNote, result: TestResult) {
        let tests = self.0.get_mut(&suite_of(test).map(str::to_string));
        if let Some(results) = tests.and_then(|tests| tests.get_mut(shown_name(test))) {
            results.now = results.now.max(Some(result));
        }
    }

    /// Returns true if a test of a suite has failed, and passed in the earlier run.
    pub(crate) fn is_new(&self, suite: Option<&str>, test: &str) -> bool {
        let tests = self.0.get(&suite.map(str::to_string));
        let results = tests.and_then(|tests| tests.get(test));
        results.is_some_and(|results| results.are(TestResult::Passed, TestResult::Failed))
    }

    /// Returns the tests with these results, by the names of their suites and their own.
    fn tests(
        &self,
        before: TestResult,
        now: TestResult,
    ) -> impl Iterator<Item = ComparedTest<'_>> + Clone {
        self.0.iter().flat_map(move |(suite, tests)| {
            let found = tests
                .iter()
                .filter(move |(_, results)| results.are(before, now));
            found.map(|(name, _)| ComparedTest {
                suite: suite.as_deref(),
                name,
            })
        })
    }

    /// Returns the tests that failed, and passed in the earlier run.
    pub(crate) fn new_failures(&self) -> impl Iterator<Item = ComparedTest<'_>> + Clone {
        self.tests(TestResult::Passed, TestResult::Failed)
    }

    /// Returns the number of tests that failed in both runs.
    pub(crate) fn still_failing(&self) -> usize {
        self.tests(TestResult::Failed, TestResult::Failed).count()
    }

    /// Returns the tests that passed, and failed in the earlier run.
    pub(crate) fn fixed(&self) -> impl Iterator<Item = ComparedTest<'_>> + Clone {
        self.tests(TestResult::Failed, TestResult::Passed)
    }

    /// Returns the numbers in words.
    pub(crate) fn line(&self) -> String {
        let (new, still, fixed) = (
            self.new_failures().count(),
            self.still_failing(),
            self.fixed().count(),
        );
        format!("new failures {new}, still failing {still}, fixed {fixed}")
    }
}

impl Results {
    /// Returns true if these are the results before and now.
    fn are(self, before: TestResult, now: TestResult) -> bool {
        (self.before, self.now) == (before, Some(now))
    }
}

impl Serialize for Comparison {
    fn serialize<S: Serializer>(&self, serializer: S) -> Result<S::Ok, S::Error> {
        let (new, fixed): (Vec<_>, Vec<_>) =
            (self.new_failures().collect(), self.fixed().collect());
        let mut members = serializer.serialize_struct("Comparison", 5)?;
        members.serialize_field("new_failures", &new.len())?;
        members.serialize_field("still_failing", &self.still_failing())?;
        members.serialize_field("fixed", &fixed.len())?;
        members.serialize_field("new_tests", &new)?;
        members.serialize_field("fixed_tests", &fixed)?;
        members.end()
    }
}

#[cfg(test)]
mod tests {
    use super::*;
    use deodarsieve_run::{Line, ProgramRun, TestRun};

    /// Returns the notes of tests outside of a suite, each with its result.
    fn notes(tests: &[(&str, &str)]) -> Vec<Note> {
        let mut run = ProgramRun::new(TestRun::new(u64::MAX));
        let mut notes = Vec::new();
        for (name, result) in tests {
            let start = format!(r#"{{ "type": "test", "event": "started", "name": "{name}" }}"#);
            let end = format!(r#"{{ "type": "test", "event": "{result}", "name": "{name}" }}"#);
            for line in [start, end] {
                notes.extend(
                    run.on_line(&Line::read(line.as_bytes()))
                        .expect("the numbers fit"),
                );
            }
        }
        notes
    }

    /// Returns the comparison of two runs.
    fn comparison(before: &[(&str, &str)], now: &[(&str, &str)]) -> Comparison {
        let mut earlier = EarlierRun::default();
        notes(before).iter().for_each(|note| earlier.on_note(note));
        let mut comparison = Comparison::with(earlier);
        for note in notes(now) {
            if let Note::Test(test) = note
                && let Some(result) = TestResult::of(&test)
            {
                comparison.on_result(&test, result);
            }
        }
        comparison
    }

    #[test]
    fn a_test_of_one_run_alone_does_not_count() {
        let comparison = comparison(
            &[
                ("a", "ok"),
                ("b", "failed"),
                ("c", "ignored"),
                ("d", "failed"),
            ],
            &[
                ("c", "failed"),
                ("d", "ignored"),
                ("e", "failed"),
                ("f", "ok"),
            ],
        );
        assert_eq!(
            comparison.line(),
            "new failures 0, still failing 0, fixed 0"
        );
        assert!(!comparison.is_new(None, "c") && !comparison.is_new(None, "e"));
    }

    #[test]
    fn a_failure_counts_if_several_tests_have_one_name() {
        let tests = [
            ("a", "ok"),
            ("a", "failed"),
            ("b", "failed"),
            ("b", "ok"),
            ("c", "ok"),
        ];
        let failed = comparison(&tests, &tests);
        assert_eq!(failed.line(), "new failures 0, still failing 2, fixed 0");
        let passed = comparison(&tests, &[("a", "ok"), ("b", "ok"), ("c", "failed")]);
        assert_eq!(passed.line(), "new failures 1, still failing 0, fixed 2");
        assert!(passed.is_new(None, "c") && !passed.is_new(None, "a"));
        assert!(!passed.is_new(Some(""), "c"));
    }

    #[test]
    fn suites_and_tests_are_told_apart_by_their_names() {
        let mut earlier = EarlierRun::default();
        for (suite, result) in [(Some("x"), TestResult::Passed), (None, TestResult::Failed)] {
            earlier.add(suite, "a".to_string(), result);
        }
        let mut comparison = Comparison::with(earlier);
        for note in notes(&[("a", "failed")]) {
            if let Note::Test(test) = note {
                comparison.on_result(&test, TestResult::Failed);
            }
        }
        assert_eq!(
            comparison.line(),
            "new failures 0, still failing 1, fixed 0"
        );
        let json = serde_json::to_string(&comparison).expect("it is JSON");
        let wanted =
            r#"{"new_failures":0,"still_failing":1,"fixed":0,"new_tests":[],"fixed_tests":[]}"#;
        assert_eq!(json, wanted);
    }
}
