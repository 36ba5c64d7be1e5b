//! The failed tests of a run in the order and the groups of documents.

use crate::properties::documents::{said, shown_title, value};
use crate::properties::facts::{
    Facts, own_name, seconds, status_of, suite_of, without_colours, without_returns,
};
use crate::properties::json::{Shown, ShownFailure};
use crate::properties::text::Cause;
use deodarsieve_run::{Failure, TestNote};

/// Returns the attempts of a test in brackets, if there were several.
pub fn attempts_of(test: &TestNote) -> String {
    match test.attempts {
        0 | 1 => String::new(),
        attempts => format!(" ({attempts} attempts)"),
    }
}

/// Returns the row of a failed test: its status, its names, its attempts and its time.
pub fn heading(test: &TestNote, failure: &Failure) -> String {
    let (title, attempts) = (shown_title(test), attempts_of(test));
    let time = test.time;
    let time = time.map_or(String::new(), |micros| format!(" {}s", seconds(micros)));
    format!("{} {title}{attempts}{time}", status_of(failure))
}

/// Returns the whole output of a failed test and the number of its lines, if the reason leaves a part of it out.
pub fn left_out(failure: &Failure, shown: &ShownFailure) -> Option<(usize, String)> {
    let output = without_colours(failure.stdout.as_ref()?);
    let output = without_returns(output.trim_end());
    let is_shown = shown.is_partial && !output.is_empty();
    is_shown.then(|| (output.split('\n').count(), value(&output)))
}

/// A failed test, and what is shown of it.
pub struct Failed<'a> {
    pub test: &'a TestNote,
    pub failure: &'a Failure,
    pub shown: &'a ShownFailure,
}

impl Failed<'_> {
    /// Returns what tests of one group have in common.
    fn cause(&self) -> Cause {
        let (place, reason) = (self.shown.place_words(), self.shown.reason());
        (status_of(self.failure), place, reason)
    }

    /// Returns what the page can show of the test: its output if why it failed is not all of that, or else why it failed,
    /// with the word for it and the number of its lines.
    fn all(&self) -> (&'static str, usize, String) {
        match left_out(self.failure, self.shown) {
            Some((lines, output)) => ("output", lines, output),
            None => {
                let why = &self.shown.why;
                ("why", why.split('\n').count(), said(why))
            }
        }
    }
}

/// Failed tests with one cause.
pub struct Group<'a>(pub Vec<Failed<'a>>);

impl Group<'_> {
    /// Returns what is shown of the cause of several tests.
    pub fn words(&self) -> String {
        let (_, place, reason) = self.0[0].cause();
        let place = place.map_or(String::new(), |place| place + ": ");
        value(&format!("{place}{reason}"))
    }

    /// Returns the heading in the page.
    pub fn page_heading(&self) -> String {
        let Failed {
            test,
            failure,
            shown,
        } = self.0[0];
        match self.0.len() {
            1 => format!("{} {}", heading(test, failure), value(&shown.short)),
            count => format!("{} {count} tests: {}", status_of(failure), self.words()),
        }
    }

    /// Returns what the page shows of a test of the group, if that is not what it shows of the first one.
    pub fn own_text(&self, test: &Failed<'_>) -> Option<(&'static str, usize, String)> {
        let (first, own) = (self.0[0].all(), test.all());
        differ(&first.2, &own.2).then_some(own)
    }
}

/// Returns true if two texts differ in other lines than those that begin with the name of a thread.
pub fn differ(first: &str, other: &str) -> bool {
    let lines = |text: &str| -> Vec<String> {
        let lines = text
            .split('\n')
            .filter(|line| !line.starts_with("thread '"));
        lines.map(str::to_string).collect()
    };
    lines(first) != lines(other)
}

/// Returns the failed tests by the names of their suites and their own, those of one cause where the first of them is.
pub fn groups<'a>(facts: &'a Facts, shown: &'a Shown) -> Vec<Group<'a>> {
    let failed = facts.failures().zip(&shown.failures);
    let mut failed: Vec<_> = failed
        .map(|((test, failure), shown)| Failed {
            test,
            failure,
            shown,
        })
        .collect();
    failed.sort_by_key(|failed| (suite_of(failed.test), own_name(failed.test)));
    let mut groups: Vec<Group<'a>> = Vec::new();
    for failed in failed {
        match groups
            .iter_mut()
            .find(|group| group.0[0].cause() == failed.cause())
        {
            Some(group) => group.0.push(failed),
            None => groups.push(Group(vec![failed])),
        }
    }
    groups
}
