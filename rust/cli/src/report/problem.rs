//! Problems of a run other than failed tests: contradictions, suites whose tests were not all run, errors of the compiler,
//! and that the run was cancelled.

use crate::report::build::CompilerError;
use crate::report::colours::without_colours;
use crate::report::ends::{end_name, ended_how};
use crate::report::escape::{line, name};
use crate::report::explanation::Found;
use crate::report::limit::{Limit, LongLines};
use crate::report::lines::{first_line, ten_written};
use crate::report::options::{Options, OutputDisplay};
use crate::report::stopped::{StoppedTests, stopped_lines};
use deodarsieve::CancelReason;
use deodarsieve_run::{
    CargoReport, CommandEnd, Contradiction, NotRun, ProgramFault, SaidNumbers, TestResult,
};
use serde::Serialize;
use std::borrow::Cow;
use std::rc::Rc;

/// The kind of a contradiction, in JSON and in JUnit XML. Formats keep this older word.
pub(crate) const CONTRADICTION: &str = "disagreement";

/// The kind of an error of the compiler.
const COMPILER_ERROR: &str = "compiler error";

/// A contradiction, a suite whose tests were not all run, an error of the compiler, or that the run was cancelled.
pub(crate) struct Problem<'a> {
    /// The name of the suite, or `None` if the problem names no suite.
    pub(crate) suite: Option<&'a Rc<String>>,

    /// The kind: a contradiction, `not run`, `cancelled`, or an error of the compiler.
    pub(crate) kind: &'static str,

    /// The line of the report. It is escaped.
    pub(crate) line: String,

    /// What explains the problem, if anything does.
    pub(crate) why: Option<ProblemReason>,

    /// True if the list at the end of the form for people has what explains the problem: tests that were stopped.
    pub(crate) why_is_listed: bool,

    /// True if no line of a file is an event of a harness, or none before cargo said that tests failed.
    pub(crate) lacks_events: bool,

    /// The source that the compiler reports an error in, if it does.
    pub(crate) source: Option<ProblemSource<'a>>,
}

/// The source of an error of the compiler.
#[derive(Clone, Copy)]
pub(crate) struct ProblemSource<'a> {
    /// The target, such as `tracker (lib test)`. It is escaped.
    pub(crate) target: &'a str,
    pub(crate) error: &'a CompilerError,
}

/// What explains a problem. As JSON it is a text.
#[derive(Clone, Serialize)]
#[serde(transparent)]
pub(crate) struct ProblemReason {
    text: String,
    #[serde(skip)]
    long_lines: LongLines,
}

impl ProblemReason {
    /// Returns what the forms except JSON show. It is not escaped.
    pub(crate) fn shown(&self) -> Cow<'_, str> {
        self.long_lines.lines(&self.text)
    }

    /// Returns what is shown where there is room for about this number of bytes. It is not escaped.
    pub(crate) fn shown_within(&self, bytes: usize) -> Cow<'_, str> {
        let shown = self.shown();
        if shown.len() <= bytes {
            shown
        } else {
            Limit::within(bytes).shown(&self.text)
        }
    }
}

impl<'a> Problem<'a> {
    /// Returns a problem with this line that nothing explains.
    fn new(suite: Option<&'a Rc<String>>, kind: &'static str, line: String) -> Problem<'a> {
        Problem {
            suite,
            kind,
            line,
            why: None,
            why_is_listed: false,
            lacks_events: false,
            source: None,
        }
    }

    /// Adds what explains the problem, if anything does. `output` says how much of it is shown.
    fn with_why(self, why: Option<String>, output: OutputDisplay) -> Problem<'a> {
        Problem {
            why: why.map(|text| ProblemReason {
                text,
                long_lines: LongLines::of(output),
            }),
            ..self
        }
    }

    /// Adds which tests of its suite, or of none, were stopped. Those of a cancelled run are in the list of the form for
    /// people.
    fn with_stopped(self, stopped: &StoppedTests<'_>, output: OutputDisplay) -> Problem<'a> {
        let tests = stopped.of_suite(self.suite);
        Problem {
            why_is_listed: tests.iter().any(|test| test.cancel.is_some()),
            ..self.with_why(stopped_lines(tests), output)
        }
    }

    /// Returns the problem that a contradiction is. `stopped` are tests that became known as stopped at the same time.
    /// `output` says how much is shown of what explains it.
    pub(crate) fn of_contradiction(
        contradiction: &'a Contradiction,
        stopped: &StoppedTests<'_>,
        output: OutputDisplay,
    ) -> Problem<'a> {
        let problem = Problem::new(None, CONTRADICTION, contradiction_line(contradiction));
        match contradiction {
            Contradiction::EndedEarly { suite, .. } | Contradiction::LastLine { suite, .. } => {
                Problem {
                    suite: Some(suite),
                    ..problem
                }
            }
            Contradiction::Cargo(report) => Problem {
                lacks_events: report.lacks_events,
                ..problem.with_why(cargo_why(report), output)
            },
            Contradiction::NoEvent { .. } => Problem {
                lacks_events: true,
                ..problem
            },
            Contradiction::OutsideSuite { .. } => problem.with_stopped(stopped, output),
            Contradiction::Command(CommandEnd::Error { words, .. }) => {
                problem.with_why(rest_of_error(words), output)
            }
            Contradiction::StrayEnd { .. }
            | Contradiction::StraySuiteEnd { .. }
            | Contradiction::Damaged { .. }
            | Contradiction::Command(_)
            | Contradiction::Program(_)
            | Contradiction::Cancelled(_) => problem,
        }
    }

    /// Returns the problem that no test ran.
    pub(crate) fn of_no_tests() -> Problem<'a> {
        Problem::new(None, "no tests", "no test ran".to_string())
    }

    /// Returns the problem that a run was cancelled.
    pub(crate) fn of_cancelled(reason: CancelReason) -> Problem<'a> {
        Problem::new(None, "cancelled", cancelled_line(reason))
    }

    /// Returns the problem that an error of the compiler in this target is. Of the options it uses only `limit` and
    /// `output`.
    pub(crate) fn of_compiler_error(
        target: &'a str,
        error: &'a CompilerError,
        options: Options,
    ) -> Problem<'a> {
        let why = error.text().map(|text| ProblemReason {
            text: Limit::of(options).shown(&text).into_owned(),
            long_lines: LongLines::of(options.output),
        });
        Problem {
            why,
            source: Some(ProblemSource { target, error }),
            ..Problem::new(None, COMPILER_ERROR, error.line(target))
        }
    }

    /// Returns the problem that a build without errors of the compiler ended in this way: cargo's own error or, if that is
    /// not known, how cargo ended.
    pub(crate) fn of_failed_build(end: &CommandEnd, output: OutputDisplay) -> Problem<'a> {
        match end {
            CommandEnd::Error { words, .. } => Problem::new(None, CONTRADICTION, error_line(words))
                .with_why(rest_of_error(words), output),
            CommandEnd::NotStarted { .. }
            | CommandEnd::Signal { .. }
            | CommandEnd::Status { .. } => {
                let line = format!("cargo {}", end_text(end));
                Problem::new(None, CONTRADICTION, line)
            }
        }
    }

    /// Returns the problem that some tests of a suite were not run. `stopped` are tests that became known as stopped at
    /// the same time. `output` says how much of their names is shown.
    pub(crate) fn of_not_run(
        not_run: &'a NotRun,
        stopped: &StoppedTests<'_>,
        output: OutputDisplay,
    ) -> Problem<'a> {
        let (suite, count) = (&not_run.suite, not_run.not_run);
        let (shown, initial) = (name(suite), not_run.initial_run_count);
        let line = format!("{shown}: {count} of {initial} tests were not run");
        Problem::new(Some(suite), "not run", line).with_stopped(stopped, output)
    }
}

/// Returns the line of an error of cargo: its first line.
fn error_line(error: &str) -> String {
    let (first, _) = first_line(error);
    format!("cargo: {}", line(&without_colours(first)))
}

/// Returns the lines of an error of cargo after its first one, or `None` if there are none.
fn rest_of_error(error: &str) -> Option<String> {
    let rest = first_line(error).1.trim_matches('\n');
    (!rest.is_empty()).then(|| without_colours(rest).into_owned())
}

/// Returns the line that says why a run was cancelled.
fn cancelled_line(reason: CancelReason) -> String {
    format!("the run was cancelled ({reason:?})")
}

/// Returns what explains a failure of cargo: the explanation in the prints before it, or else ten lines of them, or
/// else the line after `Caused by:`. It has no colours.
fn cargo_why(report: &CargoReport) -> Option<String> {
    let prints = without_colours(&report.prints);
    match Found::of(&prints).explanation_in(&prints) {
        Some(explanation) => Some(explanation.text().to_string()),
        None => ten_written(&prints).or_else(|| {
            let cause = report.cause.as_deref().map(without_colours);
            cause.map(Cow::into_owned)
        }),
    }
}

/// Returns the line of a contradiction.
fn contradiction_line(contradiction: &Contradiction) -> String {
    match contradiction {
        Contradiction::EndedEarly { suite, end } => {
            let how = end.map(|end| format!(", {}", ended_how(end)));
            format!("{} ended early{}", name(suite), how.unwrap_or_default())
        }
        Contradiction::LastLine {
            suite,
            said,
            passed,
            failed,
        } => {
            let (suite, said) = (name(suite), said_numbers(said));
            format!(
                "{suite}: its last line {said}, but {passed} of its tests passed and {failed} failed"
            )
        }
        Contradiction::StrayEnd { name: test, result } => {
            let (test, result) = (name(test), result_word(*result));
            format!("{test} ended {result}, and had not started")
        }
        Contradiction::StraySuiteEnd {
            key,
            failed_verdict,
        } => stray_suite_line(key.as_deref(), *failed_verdict),
        Contradiction::OutsideSuite { started } => {
            format!("{started} tests started outside of a suite")
        }
        Contradiction::Cargo(report) => format!("cargo: {}", line(&without_colours(&report.line))),
        Contradiction::Damaged { text } => {
            let text = line(text);
            format!("a damaged line says that a test or a suite failed: {text}")
        }
        Contradiction::NoEvent { file } => no_event_line(file.as_deref()),
        Contradiction::Command(end) => command_line(end),
        Contradiction::Program(fault) => fault_line(fault),
        Contradiction::Cancelled(reason) => cancelled_line(*reason),
    }
}

/// Returns the line of a file, or of the only input, without an event of a harness.
fn no_event_line(file: Option<&str>) -> String {
    let file = file.map_or_else(|| "the input".to_string(), name);
    format!("no line of {file} is of a test run")
}

/// Returns the line of a suite that ended and had not started.
fn stray_suite_line(key: Option<&str>, failed_verdict: bool) -> String {
    let key = key.map(|key| name(key) + " ").unwrap_or_default();
    let verdict = verdict(failed_verdict);
    format!("a suite ended that had not started: {key}{verdict}")
}

/// Returns the line of a command that failed.
fn command_line(end: &CommandEnd) -> String {
    match end {
        CommandEnd::Error { words, .. } => error_line(words),
        CommandEnd::Status { .. } => {
            format!("the command {}, and no line says why", end_text(end))
        }
        CommandEnd::NotStarted { .. } | CommandEnd::Signal { .. } => {
            format!("the command {}", end_text(end))
        }
    }
}

/// Returns how a command ended. On some systems its status may be negative.
fn end_text(end: &CommandEnd) -> String {
    match end {
        CommandEnd::NotStarted { error } => format!("could not be started: {}", line(error)),
        CommandEnd::Signal { number } => format!("ended by signal {number}"),
        CommandEnd::Status { code } | CommandEnd::Error { code, .. } => {
            format!("ended with status {}", code.cast_signed())
        }
    }
}

/// Returns the line of what is wrong with a program, or with the lines of programs.
fn fault_line(fault: &ProgramFault) -> String {
    match fault {
        ProgramFault::Unexplained { program, end } => {
            format!("{} ended {}", name(program), ended_how(*end))
        }
        ProgramFault::NoTests { program } => format!("{} ended and ran no tests", name(program)),
        ProgramFault::NoEnd { program } => format!("{} did not end", name(program)),
        ProgramFault::NotStarted { end } => {
            format!("a program ended that had not started: {}", end_name(*end))
        }
        ProgramFault::CutOff => {
            "the run was cut off: no line says how its command ended".to_string()
        }
    }
}

/// Returns what the last line of a suite says.
fn said_numbers(said: &SaidNumbers) -> String {
    let verdict = verdict(said.failed_verdict);
    match (said.passed, said.failed) {
        (Some(passed), Some(failed)) => {
            format!("counts {passed} passed and {failed} failed ({verdict})")
        }
        (Some(passed), None) => format!("counts {passed} passed ({verdict})"),
        (None, Some(failed)) => format!("counts {failed} failed ({verdict})"),
        (None, None) => format!("says {verdict}"),
    }
}

/// Returns the word for a verdict.
fn verdict(failed: bool) -> &'static str {
    if failed { "failed" } else { "ok" }
}

/// Returns the word for the result of a test, as its line has it.
fn result_word(result: TestResult) -> &'static str {
    match result {
        TestResult::Ok => "ok",
        TestResult::Failed => "failed",
        TestResult::Ignored => "ignored",
    }
}

#[cfg(test)]
mod tests {
    use super::*;

    #[test]
    fn the_status_of_a_command_may_be_negative() {
        let code = (-1_i32).cast_unsigned();
        let status = CommandEnd::Status { code };
        let line = command_line(&status);
        assert_eq!(
            line,
            "the command ended with status -1, and no line says why"
        );
        let build = Problem::of_failed_build(&status, OutputDisplay::Auto);
        assert_eq!(build.line, "cargo ended with status -1");
    }
}
