//! The model of a report, while its run is read.

use crate::report::Files;
use crate::report::attempts::PassedTest;
use crate::report::cause::Cause;
use crate::report::colours::without_colours;
use crate::report::comparison::Comparison;
use crate::report::entry::Entry;
use crate::report::escape::whole_text;
use crate::report::failure::ShownFailure;
use crate::report::model::{
    AttemptModel, CaseModel, FailedModel, FailedResult, FlakyModel, PlaceModel, ProblemModel,
    ReportModel, Seconds, SuiteModel, TestKind, TestModel,
};
use crate::report::numbers::Numbers;
use crate::report::problem::Problem;
use crate::report::slowest::Slowest;
use crate::report::stopped::stopped_words;
use crate::report::suite_key::SuiteKey;
use crate::report::whole_output::{MOST_BYTES_OF_TEXT, OutputRoom, PAGE_ROOM, SUMMARY_ROOM};
use crate::report::words::{outcome_text, title_in_document};
use deodarsieve::RunOutcome;
use deodarsieve_run::{RunEnd, SuiteNote, TestNote, TestOutcome};
use std::collections::{BTreeMap, HashSet};
use std::rc::Rc;

/// The number of slowest tests that are listed.
const SLOWEST: usize = 10;

/// A suite that has not ended, or the tests outside of a suite in a file that has not ended.
struct OpenSuite {
    /// The name, which keeps the key in use.
    name: Option<Rc<String>>,
    cases: Vec<CaseModel>,
}

impl OpenSuite {
    /// Returns the suite that has this name, without cases.
    fn new(name: Option<&Rc<String>>) -> OpenSuite {
        OpenSuite {
            name: name.cloned(),
            cases: Vec::new(),
        }
    }
}

/// The model of a report, until its run is over.
pub(crate) struct ModelBuilder {
    documents: Files,
    page_room: OutputRoom,
    summary_room: OutputRoom,

    /// The suites that have not ended, and that have cases. The end of a file ends all of them.
    open: BTreeMap<SuiteKey, OpenSuite>,

    /// The suites that have ended.
    suites: Vec<SuiteModel>,
    problems: Vec<ProblemModel>,
    slowest: Slowest<String>,
    skips: Vec<(String, String)>,
    flaky: Vec<FlakyModel>,

    /// The number of failed tests.
    failed: usize,

    /// The causes of failures so far.
    causes: HashSet<Rc<Cause>>,
}

impl ModelBuilder {
    /// Returns the model of a run without entries.
    pub(crate) fn new(documents: Files) -> ModelBuilder {
        ModelBuilder {
            documents,
            page_room: PAGE_ROOM,
            summary_room: SUMMARY_ROOM,
            open: BTreeMap::new(),
            suites: Vec::new(),
            problems: Vec::new(),
            slowest: Slowest::new(if documents.html { SLOWEST } else { 0 }),
            skips: Vec::new(),
            flaky: Vec::new(),
            failed: 0,
            causes: HashSet::new(),
        }
    }

    /// Keeps what is shown of an entry.
    pub(crate) fn on_entry(&mut self, entry: &Entry<'_>) {
        match entry {
            Entry::Passed(passed) => self.on_passed(passed),
            Entry::Skipped(test) => self.on_skipped(test),
            Entry::Stopped(test) => self.on_stopped(test),
            Entry::Failed(failure) => self.on_failed(failure),
            Entry::Problem(problem) | Entry::CompilerError(problem) => self.on_problem(problem),
            Entry::Suite(suite) => self.on_suite(suite),
            Entry::Flaky(_) | Entry::FailedTarget(_) => {}
        }
    }

    /// Keeps a test that passed.
    fn on_passed(&mut self, passed: &PassedTest<'_>) {
        let test = passed.test;
        self.slowest.add(test.time, || title_in_document(test));
        let failed = || passed.failed.iter().map(AttemptModel::of).collect();
        if self.documents.html && test.attempts > 1 {
            self.flaky.push(FlakyModel {
                title: title_in_document(test),
                attempts: test.attempts,
                time: test.time.map(Seconds),
                failed: failed(),
            });
        }
        if self.documents.have_all_tests() {
            self.add_test(test, TestKind::Passed(failed()));
        }
    }

    /// Keeps a skipped test.
    fn on_skipped(&mut self, test: &TestNote) {
        let reason = match &test.outcome {
            TestOutcome::Skipped { reason } => reason.as_deref(),
            TestOutcome::Passed { .. } | TestOutcome::Stopped | TestOutcome::Failed(_) => None,
        };
        if let Some(reason) = reason.filter(|_| self.documents.html) {
            self.skips
                .push((title_in_document(test), whole_text(reason)));
        }
        if self.documents.have_all_tests() {
            self.add_test(test, TestKind::Skipped(reason.map(str::to_string)));
        }
    }

    /// Keeps a stopped test.
    fn on_stopped(&mut self, test: &TestNote) {
        if self.documents.have_all_tests() {
            self.add_test(test, TestKind::Stopped(stopped_words(test)));
        }
    }

    /// Keeps a failed test.
    fn on_failed(&mut self, failure: &ShownFailure<'_>) {
        let test = failure.test;
        self.slowest.add(test.time, || title_in_document(test));
        let why = failure.why();
        let stdout = failure.failure.stdout.as_deref();
        let Files {
            html,
            markdown,
            json,
            ..
        } = self.documents;
        let has_all = self.documents.have_all_tests();
        let shorter = Some(failure)
            .filter(|_| markdown)
            .and_then(|failure| failure.why_within(MOST_BYTES_OF_TEXT));
        let page = stdout.filter(|_| html && why.is_partial);
        let summary = stdout.filter(|_| markdown && (why.is_partial || shorter.is_some()));
        let json = Some(failure).filter(|_| json);
        let failed = FailedModel {
            order: self.failed,
            result: FailedResult::of(&failure.failure.kind),
            cause: self.shared(Cause::of(failure)),
            place: failure.place.filter(|_| has_all).map(PlaceModel::from),
            output: stdout.filter(|_| has_all).map(str::to_string),
            whole_lines: json.and_then(ShownFailure::whole_lines),
            short: failure.short().into_owned(),
            why: why.text.clone(),
            summary_why: shorter.map(|why| why.text),
            page_output: page.and_then(|output| self.page_room.take(output)),
            summary_output: summary
                .and_then(|output| self.summary_room.take(&without_colours(output))),
        };
        self.failed += 1;
        self.add_test(test, TestKind::Failed(Box::new(failed)));
    }

    /// Returns the one copy of a cause.
    fn shared(&mut self, cause: Cause) -> Rc<Cause> {
        if let Some(shared) = self.causes.get(&cause) {
            return shared.clone();
        }
        let cause = Rc::new(cause);
        self.causes.insert(cause.clone());
        cause
    }

    /// Keeps a problem.
    fn on_problem(&mut self, problem: &Problem<'_>) {
        if problem.suite.is_some() {
            self.add(problem.suite, CaseModel::Problem(self.problems.len()));
        }
        self.problems.push(ProblemModel::of(problem));
    }

    /// Adds a test to its suite.
    fn add_test(&mut self, test: &TestNote, kind: TestKind) {
        let case = CaseModel::Test(TestModel::of(test, kind));
        self.add(test.suite.as_ref(), case);
    }

    /// Adds a case to the suite that has this name.
    fn add(&mut self, name: Option<&Rc<String>>, case: CaseModel) {
        let open = self.open.entry(SuiteKey::of(name));
        open.or_insert_with(|| OpenSuite::new(name))
            .cases
            .push(case);
    }

    /// Takes the end of a suite. The tests outside of a suite are left out if there are none.
    fn on_suite(&mut self, suite: &SuiteNote) {
        let name = suite.name.as_ref();
        let open = self.open.remove(&SuiteKey::of(name));
        let numbers = Numbers::of_suite(suite);
        if name.is_none() && numbers.are_zero() {
            return;
        }
        let OpenSuite { name, cases } = open.unwrap_or_else(|| OpenSuite::new(name));
        self.suites.push(SuiteModel {
            name,
            numbers,
            time: suite.time.map(Seconds),
            cases,
        });
    }

    /// Returns the model of the finished report. `comparison` is that with an earlier run, if there is one.
    pub(crate) fn finish(self, end: &RunEnd, comparison: Option<Comparison>) -> ReportModel {
        let is_empty = matches!(end.outcome, RunOutcome::NoTestsRun);
        let mut problems = self.problems;
        if is_empty {
            problems.insert(0, ProblemModel::of(&Problem::of_no_tests()));
        }
        ReportModel {
            outcome: outcome_text(end.outcome),
            numbers: Numbers::of_run(end),
            time: end.time.map(Seconds),
            comparison,
            suites: self.suites,
            problems,
            slowest: self.slowest.into_tests().collect(),
            skips: self.skips,
            flaky: self.flaky,
            is_empty,
        }
    }
}
