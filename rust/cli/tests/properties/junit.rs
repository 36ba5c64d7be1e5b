//! JUnit's XML.

use crate::properties::documents::{allowed, said, said_whole, value};
use crate::properties::facts::{
    Facts, Suite, controlled, outcome, own_name, problem_line, seconds, shown, stopped_lines,
};
use crate::properties::json::{Shown, ShownFailure};
use crate::properties::xml::{Element, read};
use deodarsieve_run::{Failure, FailureKind, Note, TestNote, TestOutcome};

/// What is shown of a run, by its notes.
struct Notes<'a> {
    shown: &'a Shown,
    failures: Vec<(&'a TestNote, &'a ShownFailure)>,
    problems: Vec<(&'a Note, Option<&'a str>)>,
}

impl<'a> Notes<'a> {
    /// Returns what is shown of the notes of a run.
    fn of(facts: &'a Facts, shown: &'a Shown) -> Notes<'a> {
        let tests = facts.failures().map(|(test, _)| test);
        let reasons = shown.problems.iter().map(Option::as_deref);
        Notes {
            shown,
            failures: tests.zip(&shown.failures).collect(),
            problems: facts
                .problems()
                .map(|(note, _)| note)
                .zip(reasons)
                .collect(),
        }
    }

    /// Returns what is shown of a failed test.
    fn failure(&self, test: &TestNote) -> &'a ShownFailure {
        let mut failures = self.failures.iter();
        let found = failures.find(|(found, _)| std::ptr::eq(*found, test));
        found.expect("the failed test is shown").1
    }

    /// Returns what explains a problem.
    fn reason(&self, note: &Note) -> Option<&'a str> {
        let mut problems = self.problems.iter();
        let found = problems.find(|(found, _)| std::ptr::eq(*found, note));
        found.expect("the problem is shown").1
    }
}

/// Returns a suite of JUnit's XML with the numbers of its cases.
fn with_counts(element: Element, cases: &[Element], has_skipped: bool) -> Element {
    let count = |name| {
        let has = |case: &&Element| case.inner().any(|inner| inner.name == name);
        cases.iter().filter(has).count()
    };
    let element = element
        .with("tests", cases.len())
        .with("failures", count("failure"))
        .with("errors", count("error"));
    if has_skipped {
        element.with("skipped", count("skipped"))
    } else {
        element
    }
}

/// Returns an element with a time, if it is known.
fn with_time(element: Element, time: Option<u64>) -> Element {
    match time {
        Some(micros) => element.with("time", seconds(micros)),
        None => element,
    }
}

/// Returns the test case of a problem.
fn problem_case(line: &str, kind: &str, why: Option<&str>) -> Element {
    let line = allowed(line);
    let text = why.map_or(line.clone(), value);
    let error = Element::new("error")
        .with("message", &line)
        .with("type", kind)
        .text(&text);
    Element::new("testcase")
        .with("name", line)
        .with("classname", "test-report")
        .elements([error])
}

/// Returns the test case of a note.
fn case_of(note: &Note, class: &str, notes: &Notes<'_>) -> Element {
    let Note::Test(test) = note else {
        let line = value(&problem_line(note).expect("it is a problem"));
        let kind = match note {
            Note::NotRun(_) => "not run",
            _ => "disagreement",
        };
        return problem_case(&line, kind, notes.reason(note));
    };
    let case = Element::new("testcase")
        .with("name", value(&shown(own_name(test))))
        .with("classname", class);
    let case = with_time(case, test.time);
    match &test.outcome {
        TestOutcome::Passed { .. } => {
            let flaky = Element::new("flakyFailure")
                .with("message", "attempt failed")
                .with("type", "flaky");
            let failed = notes.shown.attempts(test).iter().take(20).map(|shown| {
                let attempt = Element::new("flakyFailure").with("message", value(&shown.short));
                attempt.with("type", "flaky").text(&said(&shown.why))
            });
            let failed: Vec<_> = failed.collect();
            let others = (test.attempts.max(1) - 1).min(20) - failed.len();
            case.elements(failed).elements(vec![flaky; others])
        }
        TestOutcome::Skipped { reason } => {
            let skipped = Element::new("skipped");
            case.elements([match reason {
                Some(reason) => skipped.with("message", said_whole(reason)),
                None => skipped,
            }])
        }
        TestOutcome::Stopped => {
            let lines = stopped_lines(&[note]).expect("the test was stopped");
            let words = lines.strip_prefix(own_name(test)).expect("it is named");
            let skipped = Element::new("skipped");
            case.elements([skipped.with("message", value(words.trim_start_matches(' ')))])
        }
        TestOutcome::Failed(failure) => failed_case(case, failure, notes.failure(test)),
    }
}

/// Returns the test case of a failed test.
fn failed_case(mut case: Element, failure: &Failure, shown: &ShownFailure) -> Element {
    if let Some(place) = &shown.place {
        case = case
            .with("file", value(&controlled(&place.file, true)))
            .with("line", &place.line);
    }
    let (name, kind) = match failure.kind {
        FailureKind::Crashed(_) => ("error", "crashed"),
        FailureKind::TimedOut => ("failure", "test timeout"),
        FailureKind::Failed | FailureKind::WithoutEnd | FailureKind::Flaky => {
            ("failure", "test failure")
        }
    };
    let reason = Element::new(name)
        .with("message", value(&shown.short))
        .with("type", kind)
        .text(&said(&shown.why));
    let output = failure.stdout.as_ref().map(|output| {
        let output = said_whole(output);
        Element::new("system-out").text(&output)
    });
    case.elements([reason]).elements(output)
}

/// Returns a suite of JUnit's XML.
fn junit_suite(suite: &Suite<'_>, notes: &Notes<'_>) -> Element {
    let name = value(&shown(suite.name.map_or("(no suite)", |name| name)));
    let class = name.replace('.', "_");
    let cases: Vec<_> = suite
        .notes
        .iter()
        .map(|note| case_of(note, &class, notes))
        .collect();
    let element = with_counts(Element::new("testsuite").with("name", name), &cases, true);
    let time = match suite.over {
        Some(Note::Suite(over)) => over.time,
        _ => None,
    };
    with_time(element, time).elements(cases)
}

/// Returns the problems of no suite as test cases. That no test ran is the last one.
fn own_cases(facts: &Facts, notes: &Notes<'_>) -> Vec<Element> {
    let is_own = |note: &&Note| crate::properties::facts::suite_of_problem(note).is_none();
    let own = facts.problems().map(|(note, _)| note).filter(is_own);
    let mut cases: Vec<_> = own.map(|note| case_of(note, "", notes)).collect();
    if let Some(line) = facts.cancelled_line() {
        cases.push(problem_case(&line, "cancelled", None));
    }
    if outcome(&facts.end) == "no-tests-run" {
        cases.push(problem_case("no test ran", "no tests", None));
    }
    cases
}

/// Asserts that JUnit's XML has one test case for each test with a result and for each problem, with its facts, and
/// nothing else.
pub fn check(facts: &Facts, shown: &Shown, junit: &str) {
    let notes = Notes::of(facts, shown);
    let mut suites: Vec<_> = facts
        .suites()
        .iter()
        .map(|suite| junit_suite(suite, &notes))
        .collect();
    let own = own_cases(facts, &notes);
    if !own.is_empty() {
        let element = Element::new("testsuite").with("name", "test-report");
        suites.push(with_counts(element, &own, true).elements(own));
    }
    let cases: Vec<Element> = suites.iter().flat_map(Element::inner).cloned().collect();
    let wanted = with_counts(
        Element::new("testsuites").with("name", "test-report"),
        &cases,
        false,
    );
    let wanted = with_time(wanted, facts.end.time).elements(suites);
    let document = junit.strip_prefix("<?xml version=\"1.0\" encoding=\"UTF-8\"?>\n");
    let found = read(document.expect("the document begins with its version"));
    let found = found.without_spaces(&["testsuites", "testsuite", "testcase"]);
    assert_eq!(found, wanted);
    let failed = facts.end.stats.finished_count - facts.end.stats.passed;
    assert_eq!(
        cases
            .iter()
            .filter(|case| case.inner().any(|it| it.name == "failure"))
            .count(),
        failed - facts.end.crashed
    );
    assert_eq!(
        cases.len(),
        facts.tests().count()
            + facts.problems().count()
            + usize::from(outcome(&facts.end) == "no-tests-run")
            + usize::from(facts.cancelled_line().is_some())
    );
}
