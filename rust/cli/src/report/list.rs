//! The list of tests at the end of the text for people.

use crate::report::cause::{Cause, grouped};
use crate::report::comparison::Comparison;
use crate::report::failure::ShownFailure;
use crate::report::options::Options;
use crate::report::output::Text;
use crate::report::screen::ScreenLine;
use crate::report::slowest::Slowest;
use crate::report::words::{shown_name, style_of, time_and_title, title};
use deodarsieve::FinalStatusLevel;
use deodarsieve_run::TestNote;
use std::cmp::Reverse;
use std::collections::BTreeMap;
use std::rc::Rc;

/// The number of spaces before each line under a line of the list.
pub(crate) const LIST_MARGIN: usize = 13;

/// The column in which the status of a line ends.
const STATUS_WIDTH: usize = 12;

/// The list at the end: the tests that are stored for it, in the order of their levels, and the slowest. What failed comes
/// last: tests by suite and name, then those that were stopped, and then contradictions.
pub(crate) struct List {
    options: Options,

    /// The tests that did not fail, by their levels. Each flaky test has a part of its own, by the number of tests that
    /// ended before it, and by how many parts were added before it.
    parts: BTreeMap<(Reverse<FinalStatusLevel>, usize, usize), Text>,
    slowest: Slowest<Text>,
    failures: Vec<ListedFailure>,
    stopped: Text,
    errors: Text,

    /// The number of contradictions, those that are not listed too.
    pub(crate) error_count: usize,
}

/// A failed test in the list.
struct ListedFailure {
    /// The names of its suite and of the test, by which failed tests are sorted. They are not escaped.
    suite: Option<Rc<String>>,
    name: String,

    /// The same as they are shown.
    title: String,
    cause: Cause,

    /// Why it failed, if the list shows that.
    why: Option<Text>,
}

impl List {
    /// Returns a list without tests.
    pub(crate) fn new(options: Options) -> List {
        List {
            options,
            parts: BTreeMap::new(),
            slowest: Slowest::new(options.slowest),
            failures: Vec::new(),
            stopped: Text::new(options),
            errors: Text::new(options),
            error_count: 0,
        }
    }

    /// Adds the line of a test that did not fail, and the short reason of an attempt that did. Returns the part of the list
    /// in which its output may follow.
    pub(crate) fn add(
        &mut self,
        status: &str,
        level: FinalStatusLevel,
        test: &TestNote,
        reason: Option<&str>,
    ) -> &mut Text {
        let key = match level {
            FinalStatusLevel::Flaky => (Reverse(level), test.ended.unwrap_or(0), self.parts.len()),
            _ => (Reverse(level), 0, 0),
        };
        let options = self.options;
        let part = self.parts.entry(key).or_insert_with(|| Text::new(options));
        push_test(status, test, reason, options, part);
        part
    }

    /// Adds a failed test, and why it failed if the list shows that.
    pub(crate) fn add_failure(&mut self, failure: &ShownFailure<'_>, why: Option<Text>) {
        let test = failure.test;
        self.failures.push(ListedFailure {
            suite: test.suite.clone(),
            name: shown_name(test).to_string(),
            title: title(test),
            cause: Cause::of(failure),
            why,
        });
    }

    /// Adds a test that was stopped.
    pub(crate) fn add_stopped(&mut self, test: &TestNote) {
        push_test("STOPPED", test, None, self.options, &mut self.stopped);
    }

    /// Adds the line of a contradiction.
    pub(crate) fn add_error(&mut self, error: &str) {
        let mut line = begun("ERROR");
        line.push(error);
        line.push_to(&mut self.errors, self.options.screen);
    }

    /// Keeps the line of a test that ran, if it is one of the slowest so far.
    pub(crate) fn keep_time(&mut self, test: &TestNote) {
        let options = self.options;
        self.slowest.add(test.time, || {
            let mut line = Text::new(options);
            push_test("SLOWEST", test, None, options, &mut line);
            line
        });
    }

    /// Returns the list. Failed tests are marked that passed in the run that `comparison` compares with.
    pub(crate) fn into_texts(mut self, comparison: Option<&Comparison>) -> Vec<Text> {
        for failure in &mut self.failures {
            let suite = failure.suite.as_deref().map(String::as_str);
            if comparison.is_some_and(|comparison| comparison.is_new(suite, &failure.name)) {
                failure.title.push_str(" (new)");
            }
        }
        let mut texts: Vec<_> = self.slowest.into_tests().map(|(_, line)| line).collect();
        texts.extend(self.parts.into_values());
        texts.extend(failure_texts(self.failures, self.options));
        texts.extend([self.stopped, self.errors]);
        texts.retain(|text| !text.is_empty());
        texts
    }
}

/// Returns the lines of failed tests by suite and name. Those with the same cause are one entry, where the first is, unless
/// the list shows why they failed.
fn failure_texts(mut failures: Vec<ListedFailure>, options: Options) -> Vec<Text> {
    failures.sort_by(|one, other| (&one.suite, &one.name).cmp(&(&other.suite, &other.name)));
    let mut texts = Vec::new();
    if options.failure_output.is_final() {
        texts.extend(failures.into_iter().flat_map(|failure| {
            let line = entry_text(&failure, &[], options);
            [Some(line), failure.why].into_iter().flatten()
        }));
    } else {
        let groups = grouped(failures, |failure| failure.cause.clone());
        texts.extend(
            groups
                .iter()
                .map(|(first, others)| entry_text(first, others, options)),
        );
    }
    texts
}

/// Returns the lines of failed tests with the same cause: their place, if it is known, and the short reason. A single one
/// has its name between these, and of several the names are below.
fn entry_text(first: &ListedFailure, others: &[ListedFailure], options: Options) -> Text {
    let cause = &first.cause;
    let mut line = begun(cause.result.status());
    if !others.is_empty() {
        line.push(format!("{} tests: ", 1 + others.len()));
    }
    if let Some(place) = &cause.place {
        line.push_place(place, options.screen);
        line.push(": ");
    }
    if others.is_empty() {
        line.push(format!("{}: ", first.title));
    }
    line.push_input(&cause.reason, options.raw);
    let mut text = Text::new(options);
    line.push_to(&mut text, options.screen);
    if !others.is_empty() {
        for failure in [first].into_iter().chain(others) {
            let mut line = ScreenLine::default();
            line.push(" ".repeat(LIST_MARGIN));
            line.push(&failure.title);
            line.push_to(&mut text, options.screen);
        }
    }
    text
}

/// Appends the line of a test: its status, its time, its name and, if there is one, a short reason.
fn push_test(
    status: &str,
    test: &TestNote,
    reason: Option<&str>,
    options: Options,
    text: &mut Text,
) {
    let mut line = begun(status);
    line.push(time_and_title(test));
    if let Some(reason) = reason {
        line.push(": ");
        line.push_input(reason, options.raw);
    }
    line.push_to(text, options.screen);
}

/// Returns a line that begins with a status.
fn begun(status: &str) -> ScreenLine<'static> {
    let mut line = ScreenLine::default();
    line.push(" ".repeat(STATUS_WIDTH.saturating_sub(status.len())));
    line.push_styled(status.to_string(), style_of(status));
    line.push(" ");
    line
}
