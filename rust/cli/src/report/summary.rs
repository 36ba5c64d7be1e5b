//! The summary of a report in Markdown.

use crate::report::colours::without_colours;
use crate::report::comparison::Comparison;
use crate::report::escape::{shortened, text};
use crate::report::groups::{Failure, Group, differ, groups};
use crate::report::model::{FailedModel, ProblemModel, ReportModel};
use crate::report::output::{Document, Template};
use crate::report::values::{Values, problem_values, run_values};
use crate::report::whole_output::{MOST_BYTES_OF_SUMMARY, MOST_BYTES_OF_TEXT};
use crate::template::Part;

/// The most bytes that the problems of a summary have, so that there is room for failed tests.
const MOST_BYTES_OF_PROBLEMS: usize = MOST_BYTES_OF_SUMMARY / 2;

/// The most bytes that a list of a summary has within a group: its names, why its other tests failed, or fixed tests.
const MOST_BYTES_OF_LIST: usize = MOST_BYTES_OF_SUMMARY / 16;

/// Returns the summary of a report in Markdown. It has only the first of many problems and of many failed tests. If it is
/// the last document, the texts of the model are dropped while values are made.
pub(crate) fn summary(model: &mut ReportModel, is_last: bool) -> Document {
    let mut room = Room(MOST_BYTES_OF_PROBLEMS);
    let parts = Template::Summary.item_parts(&["problems", "problem"]);
    let mut problems = room.fitting(&parts, model.problems.iter().map(problem_in_summary));
    let more = model.problems.len() - problems.len();
    if more > 0 {
        let line = format!("({more} more problems: a summary on GitHub holds 1 MiB)");
        problems.push(problem_values(&line, None));
    }
    room.0 += MOST_BYTES_OF_SUMMARY - MOST_BYTES_OF_PROBLEMS;
    let comparison = model.comparison.as_ref();
    let groups = groups(&mut model.suites, comparison);
    let counts: Vec<usize> = groups.iter().map(Group::count).collect();
    let parts = GroupParts::of_template();
    let shown = groups.into_iter().map(|group| {
        let values = parts.values(&group);
        if is_last {
            group.drop_texts();
        }
        values
    });
    let shown = room.fitting(&Template::FailedTest.parts(), shown);
    let more: usize = counts[shown.len()..].iter().sum();
    // The template itself has the word for a run in which no test ran: its hyphens would be references in a value.
    let outcome = (!model.is_empty).then(|| Values::of("outcome", model.outcome));
    run_values(model)
        .some("comparison", comparison.map(comparison_values))
        .section("problems", "problem", problems.into_iter())
        .section("failures", "failed", shown.into_iter())
        .count("more", more)
        .some("ran", outcome)
        .mark("no_tests", model.is_empty)
        .rendered(Template::Summary)
}

/// How many bytes a summary still has room for.
struct Room(usize);

impl Room {
    /// Returns the values of the first items, as long as what these parts of a template render of them fits, and takes
    /// that room.
    fn fitting(&mut self, parts: &[Part], items: impl Iterator<Item = Values>) -> Vec<Values> {
        items
            .map_while(|values| {
                let size = values.rendered_size(parts);
                self.0 = self.0.checked_sub(size)?;
                Some(values)
            })
            .collect()
    }
}

/// Returns the values of the first of `count` tests, as long as what these parts render of them fits, and of how many
/// there are and are left out.
fn names(parts: &[Part], count: usize, tests: impl Iterator<Item = Values>) -> Values {
    let shown = Room(MOST_BYTES_OF_LIST).fitting(parts, tests);
    let values = Values::of("count", count.to_string()).count("more", count - shown.len());
    let add = |values: Values, test| values.item("test", test);
    shown.into_iter().fold(values, add)
}

/// Returns the values of the comparison with an earlier run.
fn comparison_values(comparison: &Comparison) -> Values {
    let (new, fixed) = (
        comparison.new_failures().count(),
        comparison.fixed().count(),
    );
    let parts = Template::Summary.item_parts(&["comparison", "tests", "test"]);
    let tests = comparison.fixed();
    let tests = tests.map(|test| Values::default().names(test.suite, test.name));
    Values::default()
        .number("new", new)
        .number("still", comparison.still_failing())
        .number("fixed", fixed)
        .some("tests", (fixed > 0).then(|| names(&parts, fixed, tests)))
}

/// Returns the values of a problem in a summary, where its line and what explains it are cut.
fn problem_in_summary(problem: &ProblemModel) -> Values {
    let line = shortened(&problem.line, MOST_BYTES_OF_TEXT);
    problem_values(&line, problem.why_in_summary())
}

/// The parts of the template for the lists of a group.
struct GroupParts {
    names: Vec<Part>,
    others: Vec<Part>,
}

impl GroupParts {
    /// Returns these parts.
    fn of_template() -> GroupParts {
        let parts = |list| Template::FailedTest.item_parts(&[list, "test"]);
        GroupParts {
            names: parts("tests"),
            others: parts("others"),
        }
    }

    /// Returns the values of a group of failed tests.
    fn values(&self, group: &Group<'_>) -> Values {
        let first = &*group.first.failed;
        let output = first.summary_output.as_ref().map(|output| {
            Values::of("lines", output.lines.to_string()).text("text", text(&output.text))
        });
        let tests = group.tests().map(Failure::row);
        let tests = group
            .has_several()
            .then(|| names(&self.names, group.count(), tests));
        let others = group.others.iter();
        let others = others.filter(|other| differ(why_of(first), why_of(other.failed)));
        let others = others.map(|other| other.row().text("why", shown_why(other.failed)));
        let others = Room(MOST_BYTES_OF_LIST).fitting(&self.others, others);
        group
            .heading()
            .some("tests", tests)
            .text("why", shown_why(first))
            .some("output", output)
            .section("others", "test", others.into_iter())
    }
}

/// Returns why a test failed, as a summary has room for it.
fn why_of(failed: &FailedModel) -> &str {
    failed.summary_why.as_deref().unwrap_or(&failed.why)
}

/// Returns the same as it is shown.
fn shown_why(failed: &FailedModel) -> String {
    text(&without_colours(why_of(failed)))
}
