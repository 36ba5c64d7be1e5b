//! The failed tests of a report in the order of documents: by the names of their suites and their own, and those with one
//! cause together.

use crate::report::cause::grouped;
use crate::report::comparison::Comparison;
use crate::report::escape::{shortened, text};
use crate::report::model::{CaseModel, FailedModel, Seconds, SuiteModel, TestKind};
use crate::report::values::{Values, is_code};

/// The most bytes of a short reason in a heading.
const MOST_BYTES_OF_SHORT: usize = 4_096;

/// How many values most groups have: a heading, why, and an output.
const FAILED_VALUES: usize = 3;

/// A failed test of a report.
pub(crate) struct Failure<'a> {
    suite: Option<&'a str>,
    test: &'a str,
    attempts: usize,
    time: Option<Seconds>,

    /// True if it passed in the earlier run.
    is_new: bool,
    pub(crate) failed: &'a mut FailedModel,
}

/// The failed tests with one cause. A group is where its first test is.
pub(crate) struct Group<'a> {
    pub(crate) first: Failure<'a>,
    pub(crate) others: Vec<Failure<'a>>,
}

/// Returns the failed tests of a report in groups. `comparison` is that with an earlier run, if there is one.
pub(crate) fn groups<'a>(
    suites: &'a mut [SuiteModel],
    comparison: Option<&Comparison>,
) -> Vec<Group<'a>> {
    let mut failures = Vec::new();
    for SuiteModel { name, cases, .. } in suites {
        let suite = name.as_deref().map(String::as_str);
        let of_suite = cases.iter_mut();
        failures.extend(of_suite.filter_map(|case| Failure::of(suite, case, comparison)));
    }
    failures.sort_by_key(|failure| (failure.suite, failure.test, failure.failed.order));
    grouped(failures, |failure| failure.failed.cause.clone())
        .into_iter()
        .map(|(first, others)| Group { first, others })
        .collect()
}

impl<'a> Failure<'a> {
    /// Returns the failed test of a case of a suite, if it is one.
    fn of(
        suite: Option<&'a str>,
        case: &'a mut CaseModel,
        comparison: Option<&Comparison>,
    ) -> Option<Failure<'a>> {
        let CaseModel::Test(model) = case else {
            return None;
        };
        let (attempts, time) = (model.attempts, model.time);
        let (test, kind) = model.name_and_kind();
        match kind {
            TestKind::Failed(failed) => Some(Failure {
                suite,
                test,
                attempts,
                time,
                is_new: comparison.is_some_and(|comparison| comparison.is_new(suite, test)),
                failed,
            }),
            TestKind::Passed(_) | TestKind::Skipped(_) | TestKind::Stopped(_) => None,
        }
    }

    /// Returns the values of the row of the test: its status, its names, and its attempts and its time in a note.
    pub(crate) fn row(&self) -> Values {
        let attempts = (self.attempts > 1).then(|| Values::of("count", self.attempts.to_string()));
        let note = Values::with_room(1)
            .some("attempts", attempts)
            .time(self.time);
        Values::of("status", self.failed.result.status())
            .some("new", self.is_new.then(|| Values::of("words", "new")))
            .names(self.suite, self.test)
            .some("note", (!note.is_empty()).then_some(note))
    }
}

impl Group<'_> {
    /// Returns the number of tests.
    pub(crate) fn count(&self) -> usize {
        1 + self.others.len()
    }

    /// Returns true if there are several tests.
    pub(crate) fn has_several(&self) -> bool {
        !self.others.is_empty()
    }

    /// Returns the tests, the first one first.
    pub(crate) fn tests(&self) -> impl Iterator<Item = &Failure<'_>> {
        [&self.first].into_iter().chain(&self.others)
    }

    /// Returns the values of the heading: an item `one` with the row of the only test, or an item `group` with the status of
    /// the tests, their `count`, and how many of them are new. Both have a `short` reason. That of several tests begins with
    /// the place that they have in common.
    pub(crate) fn heading(&self) -> Values {
        let failed = &self.first.failed;
        if !self.has_several() {
            return Values::with_room(FAILED_VALUES)
                .item("one", with_short(self.first.row(), &failed.short));
        }
        let new = self.tests().filter(|failure| failure.is_new).count();
        let words = (new > 0).then(|| Values::of("words", format!("{new} new")));
        let group = Values::of("status", failed.result.status())
            .some("new", words)
            .number("count", self.count());
        Values::with_room(FAILED_VALUES).item("group", with_short(group, &failed.cause.words()))
    }

    /// Drops the texts of the tests, which no other document needs.
    pub(crate) fn drop_texts(self) {
        for failure in [self.first].into_iter().chain(self.others) {
            failure.failed.short = String::new();
            failure.failed.why = String::new();
        }
    }
}

/// Returns true if the text of a test says something else than that of the first test of its group. That threads have
/// other names and numbers does not count.
pub(crate) fn differ(first: &str, other: &str) -> bool {
    first != other && !own_lines(first).eq(own_lines(other))
}

/// Returns the lines of a text that do not begin with the name of a thread.
fn own_lines(text: &str) -> impl Iterator<Item = &str> {
    text.split('\n')
        .filter(|line| !line.starts_with("thread '"))
}

/// Returns values with a short reason, which is cut and escaped.
pub(crate) fn with_short(values: Values, short: &str) -> Values {
    let short = text(&shortened(short, MOST_BYTES_OF_SHORT));
    values
        .mark("short_code", is_code(&short))
        .text("short", short)
}
