//! The model of a finished report, which documents and JSON show. Its texts are not escaped, except those of outputs in
//! documents and of problems.

use crate::cargo_message::SourcePlace;
use crate::report::cause::Cause;
use crate::report::comparison::Comparison;
use crate::report::escape::text;
use crate::report::failure::{ShownFailure, WholeLines};
use crate::report::numbers::Numbers;
use crate::report::place::Place;
use crate::report::problem::{Problem, ProblemReason, ProblemSource};
use crate::report::whole_output::{MOST_BYTES_OF_TEXT, WholeOutput};
use crate::report::words::{seconds_text, shown_name};
use deodarsieve_run::{FailureKind, TestNote};
use serde::ser::{SerializeMap, Serializer};
use serde::{Serialize, ser};
use serde_json::value::RawValue;
use std::rc::Rc;

/// A finished report. As JSON it is the text of `--format json`.
#[derive(Serialize)]
pub(crate) struct ReportModel {
    pub(crate) outcome: &'static str,
    pub(crate) numbers: Numbers,
    #[serde(skip_serializing_if = "Option::is_none")]
    pub(crate) time: Option<Seconds>,

    /// The comparison with an earlier run.
    #[serde(skip_serializing_if = "Option::is_none")]
    pub(crate) comparison: Option<Comparison>,
    pub(crate) suites: Vec<SuiteModel>,

    /// The problems other than failed tests. If no test ran, that is the first one.
    pub(crate) problems: Vec<ProblemModel>,

    /// The slowest tests, the slowest first. Only a page has this list and the next two.
    #[serde(skip)]
    pub(crate) slowest: Vec<(u64, String)>,

    /// The skipped tests that have a reason, and their reasons. Both are escaped.
    #[serde(skip)]
    pub(crate) skips: Vec<(String, String)>,

    /// The tests that passed after several attempts.
    #[serde(skip)]
    pub(crate) flaky: Vec<FlakyModel>,

    /// True if no test ran.
    #[serde(skip)]
    pub(crate) is_empty: bool,
}

/// A time in microseconds. As JSON it is a number of seconds with three digits after the point.
#[derive(Clone, Copy)]
pub(crate) struct Seconds(pub(crate) u64);

/// A suite that is over, or the tests outside of a suite.
#[derive(Serialize)]
pub(crate) struct SuiteModel {
    #[serde(skip_serializing_if = "Option::is_none")]
    pub(crate) name: Option<Rc<String>>,

    /// The numbers of its tests.
    pub(crate) numbers: Numbers,
    #[serde(skip_serializing_if = "Option::is_none")]
    pub(crate) time: Option<Seconds>,

    /// Its tests, and its problems in between. JSON has the problems in the list of the report.
    #[serde(rename = "tests", serialize_with = "serialize_tests")]
    pub(crate) cases: Vec<CaseModel>,
}

/// A test case of a suite.
pub(crate) enum CaseModel {
    Test(TestModel),

    /// The place of a problem in the list of the report, in which `no test ran` does not count.
    Problem(usize),
}

/// A test.
pub(crate) struct TestModel {
    /// The name in its lines.
    written_name: String,

    /// Where the name begins that is shown, after the name of the suite and `$`.
    start: usize,
    pub(crate) attempts: usize,
    slow: bool,
    pub(crate) time: Option<Seconds>,
    pub(crate) kind: TestKind,
}

/// How a test ended.
pub(crate) enum TestKind {
    /// The test passed after these failed attempts.
    Passed(Vec<AttemptModel>),

    /// The test was skipped, for a reason if its line has one.
    Skipped(Option<String>),

    /// The test was stopped. The text says why, and is not escaped.
    Stopped(String),
    Failed(Box<FailedModel>),
}

/// Why a test failed.
pub(crate) struct FailedModel {
    /// The number of tests that became known as failed before this one.
    pub(crate) order: usize,
    pub(crate) result: FailedResult,

    /// The cause, which failures with the same one share.
    pub(crate) cause: Rc<Cause>,

    /// The place in the sources, and the output, if all tests are listed.
    pub(crate) place: Option<PlaceModel>,
    pub(crate) output: Option<String>,
    pub(crate) short: String,
    pub(crate) why: String,

    /// The same with all lines whole, if JSON is wanted and they are not whole.
    pub(crate) whole_lines: Option<WholeLines>,

    /// The reason in a summary, if that is shorter than `why`.
    pub(crate) summary_why: Option<String>,

    /// The whole output in a page and in a summary, if the reason there does not show all of it.
    pub(crate) page_output: Option<WholeOutput>,
    pub(crate) summary_output: Option<WholeOutput>,
}

/// Why an attempt of a test failed that passed later.
pub(crate) struct AttemptModel {
    place: Option<PlaceModel>,
    output: Option<String>,
    pub(crate) short: String,
    pub(crate) why: String,

    /// The same with all lines whole, if they are not whole.
    whole_lines: Option<WholeLines>,
}

/// How a test failed.
#[derive(Clone, Copy, Debug, PartialEq, Eq, Hash, Serialize)]
#[serde(rename_all = "lowercase")]
pub(crate) enum FailedResult {
    Failed,
    #[serde(rename = "timed out")]
    TimedOut,
    Crashed,
}

/// A place in the sources.
#[derive(Serialize)]
pub(crate) struct PlaceModel {
    pub(crate) file: String,
    pub(crate) line: String,
    #[serde(skip_serializing_if = "Option::is_none")]
    pub(crate) column: Option<String>,
}

impl From<Place<'_>> for PlaceModel {
    fn from(place: Place<'_>) -> PlaceModel {
        PlaceModel {
            file: place.file.to_string(),
            line: place.line.to_string(),
            column: place.column.map(str::to_string),
        }
    }
}

impl From<SourcePlace> for PlaceModel {
    fn from(place: SourcePlace) -> PlaceModel {
        PlaceModel {
            file: place.file,
            line: place.line.to_string(),
            column: Some(place.column.to_string()),
        }
    }
}

/// A problem other than a failed test.
#[derive(Serialize)]
pub(crate) struct ProblemModel {
    pub(crate) kind: &'static str,
    #[serde(skip_serializing_if = "Option::is_none")]
    pub(crate) suite: Option<Rc<String>>,

    /// The line of the report. It is escaped.
    pub(crate) line: String,
    #[serde(skip_serializing_if = "Option::is_none")]
    why: Option<ProblemReason>,

    /// The source that the compiler reports an error in. Its texts are not escaped.
    #[serde(flatten)]
    source: Option<SourceModel>,
}

/// The source of an error of the compiler.
#[derive(Serialize)]
struct SourceModel {
    target: String,
    #[serde(skip_serializing_if = "Option::is_none")]
    code: Option<String>,
    message: String,
    #[serde(skip_serializing_if = "Option::is_none")]
    place: Option<PlaceModel>,
}

/// A test that passed after several attempts.
pub(crate) struct FlakyModel {
    /// The name of its suite and of the test. It is escaped.
    pub(crate) title: String,
    pub(crate) attempts: usize,
    pub(crate) time: Option<Seconds>,

    /// Why the attempts before the last one failed, if that is known.
    pub(crate) failed: Vec<AttemptModel>,
}

impl Serialize for Seconds {
    fn serialize<S: Serializer>(&self, serializer: S) -> Result<S::Ok, S::Error> {
        let number = RawValue::from_string(seconds_text(self.0)).map_err(ser::Error::custom)?;
        number.serialize(serializer)
    }
}

/// Serializes the tests among the cases of a suite.
fn serialize_tests<S: Serializer>(cases: &[CaseModel], serializer: S) -> Result<S::Ok, S::Error> {
    serializer.collect_seq(cases.iter().filter_map(|case| match case {
        CaseModel::Test(test) => Some(test),
        CaseModel::Problem(_) => None,
    }))
}

impl Serialize for TestModel {
    fn serialize<S: Serializer>(&self, serializer: S) -> Result<S::Ok, S::Error> {
        let mut members = serializer.serialize_map(None)?;
        members.serialize_entry("name", self.name())?;
        members.serialize_entry("written_name", &self.written_name)?;
        match &self.kind {
            TestKind::Passed(_) => members.serialize_entry("result", "passed")?,
            TestKind::Skipped(_) => members.serialize_entry("result", "skipped")?,
            TestKind::Stopped(_) => members.serialize_entry("result", "stopped")?,
            TestKind::Failed(failed) => members.serialize_entry("result", &failed.result)?,
        }
        members.serialize_entry("attempts", &self.attempts)?;
        members.serialize_entry("slow", &self.slow)?;
        serialize_some(&mut members, "time", &self.time)?;
        match &self.kind {
            TestKind::Stopped(_) => {}
            TestKind::Passed(failed) if failed.is_empty() => {}
            TestKind::Passed(failed) => members.serialize_entry("failed_attempts", failed)?,
            TestKind::Skipped(reason) => serialize_some(&mut members, "reason", reason)?,
            TestKind::Failed(failed) => {
                serialize_some(&mut members, "place", &failed.place)?;
                let own = (&failed.short, &failed.why);
                serialize_reason(&mut members, own, &failed.whole_lines)?;
                serialize_some(&mut members, "output", &failed.output)?;
            }
        }
        members.end()
    }
}

impl Serialize for AttemptModel {
    fn serialize<S: Serializer>(&self, serializer: S) -> Result<S::Ok, S::Error> {
        let mut members = serializer.serialize_map(None)?;
        serialize_some(&mut members, "place", &self.place)?;
        serialize_reason(&mut members, (&self.short, &self.why), &self.whole_lines)?;
        serialize_some(&mut members, "output", &self.output)?;
        members.end()
    }
}

/// Serializes the short reason of a failure and why a test failed, with whole lines if there are others.
fn serialize_reason<M: SerializeMap>(
    members: &mut M,
    own: (&String, &String),
    whole_lines: &Option<WholeLines>,
) -> Result<(), M::Error> {
    let (short, why) = match whole_lines {
        Some(WholeLines { short, why }) => (short, why),
        None => own,
    };
    members.serialize_entry("short", short)?;
    members.serialize_entry("why", why)
}

/// Serializes a member, if it has a value.
fn serialize_some<M: SerializeMap, T: Serialize>(
    members: &mut M,
    name: &'static str,
    value: &Option<T>,
) -> Result<(), M::Error> {
    match value {
        Some(value) => members.serialize_entry(name, value),
        None => Ok(()),
    }
}

impl TestModel {
    /// Returns the name without the name of the suite and `$` at the front.
    pub(crate) fn name(&self) -> &str {
        &self.written_name[self.start..]
    }

    /// Returns the name as above, and how the test ended.
    pub(crate) fn name_and_kind(&mut self) -> (&str, &mut TestKind) {
        (&self.written_name[self.start..], &mut self.kind)
    }

    /// Returns a test.
    pub(crate) fn of(test: &TestNote, kind: TestKind) -> TestModel {
        TestModel {
            written_name: test.name.clone(),
            start: test.name.len() - shown_name(test).len(),
            attempts: test.attempts,
            slow: test.slow,
            time: test.time.map(Seconds),
            kind,
        }
    }
}

impl ReportModel {
    /// Returns the problem of a case.
    pub(crate) fn problem(&self, place: usize) -> &ProblemModel {
        &self.problems[place + usize::from(self.is_empty)]
    }
}

impl AttemptModel {
    /// Returns what is kept of an attempt that failed.
    pub(crate) fn of(failure: &ShownFailure<'_>) -> AttemptModel {
        AttemptModel {
            place: failure.place.map(PlaceModel::from),
            output: failure.failure.stdout.clone(),
            short: failure.short().into_owned(),
            why: failure.why().text.clone(),
            whole_lines: failure.whole_lines(),
        }
    }
}

impl FailedResult {
    /// Returns how a test failed.
    pub(crate) fn of(kind: &FailureKind) -> FailedResult {
        match kind {
            FailureKind::Failed | FailureKind::WithoutEnd | FailureKind::Flaky => {
                FailedResult::Failed
            }
            FailureKind::TimedOut => FailedResult::TimedOut,
            FailureKind::Crashed(_) => FailedResult::Crashed,
        }
    }

    /// Returns the word for a failed test.
    pub(crate) fn status(self) -> &'static str {
        match self {
            FailedResult::Failed => "FAIL",
            FailedResult::TimedOut => "TIMEOUT",
            FailedResult::Crashed => "CRASH",
        }
    }
}

impl SourceModel {
    /// Returns the source of an error of the compiler.
    fn of(source: &ProblemSource<'_>) -> SourceModel {
        let diagnostic = source.error.diagnostic();
        SourceModel {
            target: source.target.to_string(),
            code: diagnostic.code().map(str::to_string),
            message: diagnostic.message.clone(),
            place: diagnostic.place().map(PlaceModel::from),
        }
    }
}

impl ProblemModel {
    /// Returns what is kept of a problem.
    pub(crate) fn of(problem: &Problem<'_>) -> ProblemModel {
        ProblemModel {
            kind: problem.kind,
            suite: problem.suite.cloned(),
            line: problem.line.clone(),
            why: problem.why.clone(),
            source: problem.source.as_ref().map(SourceModel::of),
        }
    }

    /// Returns the place of an error of the compiler, if the problem is one and has a place.
    pub(crate) fn place(&self) -> Option<&PlaceModel> {
        self.source.as_ref()?.place.as_ref()
    }

    /// Returns what explains the problem, if anything does. It is escaped.
    pub(crate) fn shown_why(&self) -> Option<String> {
        self.why.as_ref().map(|why| text(&why.shown()))
    }

    /// Returns the same in a summary, which has less room. It is escaped.
    pub(crate) fn why_in_summary(&self) -> Option<String> {
        let why = self.why.as_ref()?;
        Some(text(&why.shown_within(MOST_BYTES_OF_TEXT)))
    }
}
