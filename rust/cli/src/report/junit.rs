//! JUnit's XML of a report.
//!
//! | values | of |
//! |---|---|
//! | `tests`, `failures`, `errors`, `skipped` | the run, and each `suite`: numbers of test cases |
//! | `time` (its `seconds`) | the run, each `suite` and each `case`, if it is known |
//! | `name` | each `suite` and each `case` |
//! | `class` | each `case`: the name of its suite, with `_` for each `.` |
//! | `place` (its `file` and `line`) | each `case` that failed or is an error of the compiler, if its place is known |
//! | `flaky` (its `attempt`s, and its `explained` ones with `message` and `why`) | each `case` that passed after attempts that failed |
//! | `skipped_because` (its `message`) | each `case` that was skipped with a reason, or stopped |
//! | `skipped` | each other `case` that was skipped |
//! | `failure` or `error` (`message`, `type`, `why`), `output` (its `text`) | each `case` that failed |

use crate::report::colours::without_colours;
use crate::report::escape::{line, name_in_document, text, whole_text};
use crate::report::model::{
    AttemptModel, CaseModel, FailedModel, FailedResult, PlaceModel, ProblemModel, ReportModel,
    SuiteModel, TestKind, TestModel,
};
use crate::report::output::{Document, Template};
use crate::report::values::Values;
use crate::report::words::suite_name;
use std::ops::AddAssign;

/// The name of the run, and of the suite of problems that name no suite.
const OWN_NAME: &str = "test-report";

/// The most attempts that failed which a test case has.
const MOST_ATTEMPTS: usize = 20;

/// How many values most test cases have: a name, a class and a time.
const CASE_VALUES: usize = 3;

/// How many test cases there are, by their kinds.
#[derive(Clone, Copy, Default)]
struct Counts {
    tests: usize,
    failures: usize,
    errors: usize,
    skipped: usize,
}

impl AddAssign for Counts {
    fn add_assign(&mut self, other: Counts) {
        self.tests += other.tests;
        self.failures += other.failures;
        self.errors += other.errors;
        self.skipped += other.skipped;
    }
}

impl Counts {
    /// Returns the numbers of the test cases of a suite.
    fn of_cases(cases: &[CaseModel]) -> Counts {
        let mut counts = Counts::default();
        for case in cases {
            counts.tests += 1;
            match case {
                CaseModel::Problem(_) => counts.errors += 1,
                CaseModel::Test(test) => match &test.kind {
                    TestKind::Passed(_) => {}
                    TestKind::Skipped(_) | TestKind::Stopped(_) => counts.skipped += 1,
                    TestKind::Failed(failed) if failed.result.is_error() => counts.errors += 1,
                    TestKind::Failed(_) => counts.failures += 1,
                },
            }
        }
        counts
    }

    /// Returns the numbers of this many errors.
    fn of_errors(count: usize) -> Counts {
        Counts {
            tests: count,
            errors: count,
            ..Counts::default()
        }
    }

    /// Returns the numbers as values.
    fn values(self) -> Values {
        Values::default()
            .number("tests", self.tests)
            .number("failures", self.failures)
            .number("errors", self.errors)
            .number("skipped", self.skipped)
    }
}

/// Returns JUnit's XML of a report. If no test ran, and `no_tests_pass` is not true, it has an error that says so. The
/// model is taken apart, so that its tests and their values need not be in memory at once.
pub(crate) fn junit(mut model: ReportModel, no_tests_pass: bool) -> Document {
    let suites = std::mem::take(&mut model.suites);
    let own = own_cases(&model, no_tests_pass);
    let mut counts = Counts::of_errors(own.len());
    for suite in &suites {
        counts += Counts::of_cases(&suite.cases);
    }
    let mut values = counts.values().time(model.time);
    for suite in suites {
        values = values.item("suite", suite_values(suite, &model));
    }
    values
        .some("suite", own_suite(own))
        .rendered(Template::Junit)
}

/// Returns the problems that name no suite, as test cases. That no test ran is the last one.
fn own_cases(model: &ReportModel, no_tests_pass: bool) -> Vec<Values> {
    let (no_tests, others) = model.problems.split_at(usize::from(model.is_empty));
    let no_tests = if no_tests_pass { &[] } else { no_tests };
    let own = others.iter().filter(|problem| problem.suite.is_none());
    own.chain(no_tests).map(problem_values).collect()
}

/// Returns the suite of the problems that name no suite, unless there are none.
fn own_suite(own: Vec<Values>) -> Option<Values> {
    if own.is_empty() {
        return None;
    }
    let suite = Counts::of_errors(own.len()).values();
    let suite = suite.text("name", OWN_NAME);
    let add = |suite: Values, case| suite.item("case", case);
    Some(own.into_iter().fold(suite, add))
}

/// Returns the values of a suite.
fn suite_values(suite: SuiteModel, model: &ReportModel) -> Values {
    let name = suite_name(suite.name.as_deref().map(String::as_str));
    // Readers take what is before the last `.` for a package.
    let class = name.replace('.', "_");
    let mut values = Counts::of_cases(&suite.cases)
        .values()
        .text("name", name)
        .time(suite.time);
    for case in suite.cases {
        let case = match case {
            CaseModel::Test(test) => test_values(test, &class),
            CaseModel::Problem(place) => problem_values(model.problem(place)),
        };
        values = values.item("case", case);
    }
    values
}

/// Returns the values of a test.
fn test_values(test: TestModel, class: &str) -> Values {
    let values = Values::with_room(CASE_VALUES)
        .text("name", name_in_document(test.name()))
        .text("class", class)
        .time(test.time);
    match test.kind {
        TestKind::Passed(failed) => {
            let attempts = (test.attempts > 1).then(|| attempts_values(test.attempts - 1, &failed));
            values.some("flaky", attempts)
        }
        TestKind::Skipped(None) => values.item("skipped", Values::default()),
        TestKind::Skipped(Some(reason)) => values.item(
            "skipped_because",
            Values::of("message", whole_text(&reason)),
        ),
        TestKind::Stopped(words) => {
            values.item("skipped_because", Values::of("message", text(&words)))
        }
        TestKind::Failed(failed) => with_failure(values, &failed),
    }
}

/// Returns the values of `count` attempts that failed. Of those in `failed` it is known why.
fn attempts_values(count: usize, failed: &[AttemptModel]) -> Values {
    let explained = failed.iter().take(MOST_ATTEMPTS).map(|attempt| {
        Values::of("message", text(&attempt.short))
            .text("why", text(&without_colours(&attempt.why)))
    });
    let others = count.min(MOST_ATTEMPTS).saturating_sub(failed.len());
    let values = explained.fold(Values::default(), |values, attempt| {
        values.item("explained", attempt)
    });
    (0..others).fold(values, |values, _| {
        values.item("attempt", Values::default())
    })
}

/// Returns values with the place of a failure, why the test failed, and its output.
fn with_failure(values: Values, failed: &FailedModel) -> Values {
    let place = failed.place.as_ref().map(place_values);
    let list = if failed.result.is_error() {
        "error"
    } else {
        "failure"
    };
    let reason = Values::of("message", text(&failed.short))
        .text("type", failed.result.type_of())
        .text("why", text(&without_colours(&failed.why)));
    let output = failed
        .output
        .as_deref()
        .map(|output| Values::of("text", whole_text(output)));
    values
        .some("place", place)
        .item(list, reason)
        .some("output", output)
}

/// Returns the values of a place.
fn place_values(place: &PlaceModel) -> Values {
    Values::of("file", text(&line(&place.file))).text("line", &place.line)
}

/// Returns the test case of a problem. Its line is its name. Its text is what explains it or, if nothing does, the line
/// again, because some readers show only the text of an error.
fn problem_values(problem: &ProblemModel) -> Values {
    let line = text(&problem.line);
    let why = problem.shown_why().unwrap_or_else(|| line.clone());
    let error = Values::of("message", line.clone())
        .text("type", problem.kind)
        .text("why", why);
    Values::of("name", line)
        .text("class", OWN_NAME)
        .some("place", problem.place().map(place_values))
        .item("error", error)
}

impl FailedResult {
    /// Returns true for an error, and false for a failure.
    fn is_error(self) -> bool {
        match self {
            FailedResult::Crashed => true,
            FailedResult::Failed | FailedResult::TimedOut => false,
        }
    }

    /// Returns the type of a failure or error.
    fn type_of(self) -> &'static str {
        match self {
            FailedResult::Crashed => "crashed",
            FailedResult::TimedOut => "test timeout",
            FailedResult::Failed => "test failure",
        }
    }
}
