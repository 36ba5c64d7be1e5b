//! Reads an earlier run, with which a report compares its own.

use crate::lines::Lines;
use crate::program::{BAD_ARGUMENT, DEVICE_FAILED, Failure};
use crate::report::comparison::{EarlierRun, TestResult};
use crate::report::fault::Fault;
use deodarsieve_run::{Event, Line, Note, ProgramRun, TestRun};
use serde::Deserialize;
use serde::de::IgnoredAny;
use std::fs;

/// A report in JSON, as far as it says how tests ended.
#[derive(Deserialize)]
struct JsonReport {
    /// Each report has an outcome, so another object is none.
    #[serde(rename = "outcome")]
    _outcome: IgnoredAny,
    suites: Vec<JsonSuite>,
}

/// A suite of a report in JSON.
#[derive(Deserialize)]
struct JsonSuite {
    name: Option<String>,
    tests: Vec<JsonTest>,
}

/// A test of a report in JSON.
#[derive(Deserialize)]
struct JsonTest {
    name: String,
    result: JsonResult,
}

/// How a test of a report in JSON ended.
#[derive(Clone, Copy, Deserialize)]
#[serde(rename_all = "lowercase")]
enum JsonResult {
    Passed,
    Skipped,
    Stopped,
    Failed,
    #[serde(rename = "timed out")]
    TimedOut,
    Crashed,

    /// A result of a later version.
    #[serde(other)]
    Other,
}

impl JsonResult {
    /// Returns whether the test passed or failed, or `None` if it did neither.
    fn result(self) -> Option<TestResult> {
        match self {
            JsonResult::Passed => Some(TestResult::Passed),
            JsonResult::Skipped | JsonResult::Stopped | JsonResult::Other => None,
            JsonResult::Failed | JsonResult::TimedOut | JsonResult::Crashed => {
                Some(TestResult::Failed)
            }
        }
    }
}

/// Reads the results of the tests of an earlier run from a file: the lines of the run, or a report of it in JSON.
///
/// Fails if the file cannot be read or is neither.
pub fn read_earlier_run(path: &str) -> Result<EarlierRun, Failure> {
    let text = fs::read(path).map_err(|error| {
        let message = format!("{path} cannot be read");
        Failure::new(DEVICE_FAILED, message).caused_by(Some(error))
    })?;
    if let Ok(report) = serde_json::from_slice(&text) {
        return Ok(of_json(report));
    }
    of_lines(&text)?.ok_or_else(|| {
        let message =
            format!("--compare {path}: neither the lines of a run nor what --json writes of one");
        Failure::new(BAD_ARGUMENT, message)
    })
}

/// Returns the results in a report in JSON.
fn of_json(report: JsonReport) -> EarlierRun {
    let mut earlier = EarlierRun::default();
    for JsonSuite { name, tests } in report.suites {
        for JsonTest { name: test, result } in tests {
            if let Some(result) = result.result() {
                earlier.add(name.as_deref(), test, result);
            }
        }
    }
    earlier
}

/// Returns the results that the lines of a run make known, or `None` if they are of no run.
///
/// Fails if a number of the run does not fit.
fn of_lines(text: &[u8]) -> Result<Option<EarlierRun>, Fault> {
    let (mut earlier, mut lines) = (EarlierRun::default(), Lines::default());
    // Which tests are slow does not matter.
    let mut run = ProgramRun::new(TestRun::new(u64::MAX));
    let mut is_run = false;
    let mut take = |line: &[u8]| -> Result<(), Fault> {
        let line = Line::read(line);
        is_run |= is_of_run(&line);
        add(&mut earlier, &run.on_line(&line)?);
        Ok(())
    };
    lines.take(text, &mut take)?;
    if let Some(last) = lines.end() {
        take(&last)?;
    }
    add(&mut earlier, &run.finish(None, false)?.notes);
    Ok(is_run.then_some(earlier))
}

/// Adds the results that notes make known.
fn add(earlier: &mut EarlierRun, notes: &[Note]) {
    for note in notes {
        earlier.on_note(note);
    }
}

/// Returns true if a line is of a run: not a print, which any text may be.
fn is_of_run(line: &Line) -> bool {
    let is_print = match line.event() {
        Event::Print { .. } => true,
        Event::SuiteStarted { .. }
        | Event::SuiteEnded(_)
        | Event::TestStarted { .. }
        | Event::TestEnded { .. }
        | Event::TestSlow { .. }
        | Event::Other
        | Event::Heading { .. }
        | Event::CargoFailed { .. }
        | Event::Damaged { .. } => false,
    };
    !is_print || line.program().is_some()
}

#[cfg(test)]
mod tests {
    use super::*;
    use TestResult::{Failed, Passed};

    /// Returns the results of these tests.
    fn results(tests: &[(Option<&str>, &str, TestResult)]) -> EarlierRun {
        let mut earlier = EarlierRun::default();
        for (suite, test, result) in tests {
            earlier.add(*suite, test.to_string(), *result);
        }
        earlier
    }

    /// Returns the results in lines.
    fn read(lines: &str) -> Option<EarlierRun> {
        of_lines(lines.as_bytes()).expect("the numbers fit")
    }

    #[test]
    fn a_test_has_the_result_of_its_last_attempt_and_the_name_that_is_shown() {
        let lines = r#"{"type":"suite","event":"started","test_count":4,"nextest":{"crate":"a","test_binary":"b"}}
{"type":"test","event":"started","name":"a::b$t"}
{"type":"test","event":"ok","name":"a::b$t#3"}
{"type":"test","event":"started","name":"a::b$u"}
{"type":"test","event":"failed","name":"a::b$u#2"}
{"type":"test","event":"ignored","name":"a::b$v"}
{"type":"test","event":"started","name":"a::b$w"}"#;
        let suite = Some("a::b");
        let wanted = results(&[
            (suite, "t", Passed),
            (suite, "u", Failed),
            (suite, "w", Failed),
        ]);
        assert_eq!(read(lines), Some(wanted));
    }

    #[test]
    fn a_saved_run_has_the_names_of_its_programs() {
        let lines = r#"{"type":"command","event":"started"}
{"type":"program","event":"started","package":"p","target":"p","kind":"lib","path":"/p","name":"p"}
{"type":"suite","event":"started","test_count":1}
{"type":"test","event":"started","name":"t"}
{"type":"test","event":"ok","name":"t"}
{"type":"suite","event":"ok","passed":1,"failed":0}
{"type":"program","event":"ended","status":0,"stderr":""}
{"type":"command","event":"ended","status":0}
"#;
        assert_eq!(read(lines), Some(results(&[(Some("p"), "t", Passed)])));
        let (first, _) = lines.split_once('\n').expect("there are several lines");
        assert_eq!(read(first), Some(EarlierRun::default()));
    }

    #[test]
    fn a_text_is_no_run_and_a_run_may_have_no_test() {
        for lines in ["", "a\nb", "{\"type\":\"other\"}\n"] {
            assert_eq!(read(lines), None, "{lines:?}");
        }
        for lines in [
            "     Running unittests src/lib.rs (target/debug/deps/a-0123456789abcdef)",
            "a\nerror: could not compile `a` (lib test) due to 1 previous error\n",
        ] {
            assert_eq!(read(lines), Some(EarlierRun::default()), "{lines:?}");
        }
    }

    #[test]
    fn a_report_in_json_has_results_of_tests_that_passed_and_failed() {
        let json = r#"{"outcome":"failed","new":[1],"suites":[{"tests":[{"name":"a","result":"passed","attempts":2},
{"name":"b","result":"skipped"},{"name":"c","result":"stopped"},{"name":"d","result":"failed"}]},
{"name":"s","numbers":{},"tests":[{"name":"a","result":"timed out"},{"name":"b","result":"crashed"}]}],"problems":[]}"#;
        let report = serde_json::from_str(json).expect("it is a report");
        let wanted = results(&[
            (None, "a", Passed),
            (None, "d", Failed),
            (Some("s"), "a", Failed),
            (Some("s"), "b", Failed),
        ]);
        assert_eq!(of_json(report), wanted);
    }
}
