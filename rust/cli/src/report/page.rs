//! The page of a report.

use crate::report::comparison::Comparison;
use crate::report::groups::{Failure, Group, differ, groups, with_short};
use crate::report::model::{FailedModel, FlakyModel, ReportModel, SuiteModel};
use crate::report::numbers::Numbers;
use crate::report::output::{Document, Template};
use crate::report::pieces::with_pieces;
use crate::report::values::{Values, problem_values, run_values};
use crate::report::words::{seconds_text, suite_name};

/// The most entries of a list that is open when the page is. A longer one would hide what comes after it.
const MOST_OPEN: usize = 10;

/// Returns the page of a report. If it is the last document, the texts of the model are dropped while values are made.
pub(crate) fn page(model: &mut ReportModel, is_last: bool) -> Document {
    let groups = groups(&mut model.suites, model.comparison.as_ref());
    let are_open = groups.len() <= MOST_OPEN;
    let failures: Vec<_> = groups
        .into_iter()
        .map(|group| {
            let values = group_values(&group).mark("open", are_open);
            if is_last {
                group.drop_texts();
            }
            values
        })
        .collect();
    let longest = model.slowest.first().map_or(0, |slow| slow.0).max(1);
    let problems = model.problems.iter();
    let problems = problems.map(|problem| problem_values(&problem.line, problem.shown_why()));
    let suites = model.suites.iter().map(suite_row);
    let skips = model.skips.iter();
    let skips = skips.map(|(name, reason)| Values::of("name", name).text("reason", reason));
    let slowest = model.slowest.iter().map(|(time, title)| {
        let share = u128::from(*time) * 100 / u128::from(longest);
        Values::of("name", title)
            .number("share", share)
            .text("seconds", seconds_text(*time))
    });
    run_values(model)
        .text("outcome", model.outcome)
        .section("bar", "part", bar_parts(model.numbers))
        .some(
            "comparison",
            model.comparison.as_ref().map(comparison_values),
        )
        .section("problems", "problem", problems)
        .section("failures", "failed", failures.into_iter())
        .section("suites", "suite", suites)
        .section("slowest", "slow", slowest)
        .section("skips", "skip", skips)
        .section("flaky_tests", "test", model.flaky.iter().map(flaky_values))
        .rendered(Template::Page)
}

/// Returns the values of the comparison with an earlier run.
fn comparison_values(comparison: &Comparison) -> Values {
    let count = comparison.fixed().count();
    let fixed = (count > 0).then(|| {
        let values = Values::of("count", count.to_string()).mark("open", count <= MOST_OPEN);
        let tests = comparison.fixed();
        tests.fold(values, |values, test| {
            values.item("test", Values::default().names(test.suite, test.name))
        })
    });
    Values::of("line", comparison.line()).some("fixed", fixed)
}

/// Returns the values of a group of failed tests.
fn group_values(group: &Group<'_>) -> Values {
    let first = &*group.first.failed;
    let output = first.page_output.as_ref().map(|_| shown_output(first));
    let several = group.tests().filter(|_| group.has_several());
    let values = group.heading();
    let values = values.section(
        "tests",
        "test",
        several.map(|failure| test_in(group, failure)),
    );
    with_pieces(values, &first.why).some("output", output)
}

/// Returns the values of a test of a group: its row, and what it has to say if that is not what the first one has.
fn test_in(group: &Group<'_>, failure: &Failure<'_>) -> Values {
    let (_, first) = all_of(group.first.failed);
    let (_, own) = all_of(failure.failed);
    let output = differ(first, own).then(|| shown_output(failure.failed));
    failure.row().some("output", output)
}

/// Returns what a failed test has to say: its whole output, or why it failed if that shows all of it or if the page has no
/// room for more. Before it is which of these it is.
fn all_of(failed: &FailedModel) -> (&'static str, &str) {
    match &failed.page_output {
        Some(output) => ("output", &output.text),
        None => ("why", &failed.why),
    }
}

/// Returns the values of what a failed test has to say.
fn shown_output(failed: &FailedModel) -> Values {
    let (what, text) = all_of(failed);
    let lines = match &failed.page_output {
        Some(output) => output.lines,
        None => text.split('\n').count(),
    };
    with_pieces(Values::of("what", what).number("lines", lines), text)
}

/// Returns the parts of a bar.
fn bar_parts(numbers: Numbers) -> impl Iterator<Item = Values> {
    numbers
        .parts()
        .map(|(number, _, class)| Values::of("class", class).number("number", number))
}

/// Returns the row of a suite.
fn suite_row(suite: &SuiteModel) -> Values {
    let name = suite.name.as_deref().map(String::as_str);
    Values::of("name", suite_name(name))
        .text("words", suite.numbers.words())
        .section("bar", "part", bar_parts(suite.numbers))
        .time(suite.time)
}

/// Returns the values of a test that passed after several attempts.
fn flaky_values(test: &FlakyModel) -> Values {
    let values = Values::of("name", &test.title)
        .number("attempts", test.attempts)
        .time(test.time);
    let attempts = (1..).zip(test.failed.iter());
    attempts.fold(values, |values, (number, attempt)| {
        let item = with_short(Values::of("number", number.to_string()), &attempt.short);
        values.item("attempt", with_pieces(item, &attempt.why))
    })
}
