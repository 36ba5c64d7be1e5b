//! Reads a run, and writes its notes as lines.

use crate::common::{SLOW, finish, take};
use deodarsieve_run::{
    CommandEnd, Contradiction, FailureKind, Finished, Note, ProgramFault, TestNote, TestOutcome,
    TestRun, failed_count,
};

/// Reads a run of one file. Returns its notes, and its end.
pub fn read(text: &str) -> (Vec<Note>, Finished) {
    let mut run = TestRun::new(SLOW);
    let mut notes = take(&mut run, text);
    let finished = finish(&mut run, None);
    notes.extend(finished.notes.iter().cloned());
    (notes, finished)
}

/// Returns notes as lines. The numbers of the tests outside of suites, which end each file, are left out if there are
/// no such tests.
pub fn lines_of(notes: &[Note]) -> Vec<String> {
    let is_empty = |note: &&Note| matches!(note, Note::Suite(suite) if suite.name.is_none() && suite.stats.finished_count == 0);
    let some = notes.iter().filter(|note| !is_empty(note));
    some.map(line_of).collect()
}

/// Returns a note as a line.
fn line_of(note: &Note) -> String {
    match note {
        Note::Test(test) => format!("{} {}", name_of(test), outcome_of(&test.outcome)),
        Note::Flaky(test) => format!("{} is flaky", name_of(test)),
        Note::Contradiction(contradiction) => contradiction_of(contradiction),
        Note::NotRun(suite) => format!(
            "{}: {} of {} did not run",
            suite.suite, suite.not_run, suite.initial_run_count
        ),
        Note::Suite(suite) => format!(
            "{} is over: {} passed, {} failed, {} skipped, {} not run",
            suite.name.as_ref().map_or("no suite", |name| name.as_str()),
            suite.stats.passed,
            failed_count(&suite.stats),
            suite.skipped,
            suite.not_run
        ),
    }
}

/// Returns the suite, the name, the attempts and the time of a test.
fn name_of(test: &TestNote) -> String {
    let suite = test.suite.as_ref().map_or("no suite", |name| name.as_str());
    let mut text = format!("{suite}: {}", test.name);
    if test.attempts > 1 {
        text.push_str(&format!(" ({} attempts)", test.attempts));
    }
    if let Some(time) = test.time {
        text.push_str(&format!(" [{time} us]"));
    }
    text
}

/// Returns how a test ended, with its texts.
fn outcome_of(outcome: &TestOutcome) -> String {
    match outcome {
        TestOutcome::Passed { output: None } => String::from("passed"),
        TestOutcome::Passed {
            output: Some(output),
        } => format!("passed: {output:?}"),
        TestOutcome::Skipped { reason: None } => String::from("was skipped"),
        TestOutcome::Skipped {
            reason: Some(reason),
        } => format!("was skipped: {reason}"),
        TestOutcome::Stopped => String::from("was stopped"),
        TestOutcome::Failed(failure) => {
            let word = match &failure.kind {
                FailureKind::Failed => String::from("failed"),
                FailureKind::TimedOut => String::from("timed out"),
                FailureKind::WithoutEnd => String::from("failed without an end"),
                FailureKind::Flaky => String::from("failed as flaky"),
                FailureKind::Crashed(crash) => {
                    let end = crash.end.map(|end| format!(" by {end:?}"));
                    format!("crashed, 1 of {}{}", crash.running, end.unwrap_or_default())
                }
            };
            let texts = [&failure.stdout, &failure.message, &failure.reason];
            let texts = texts
                .into_iter()
                .flatten()
                .map(|text| format!(": {text:?}"));
            texts.fold(word, |word, text| word + &text)
        }
    }
}

/// Returns a contradiction as a line.
fn contradiction_of(contradiction: &Contradiction) -> String {
    match contradiction {
        Contradiction::EndedEarly { suite, end } => match end {
            Some(end) => format!("{suite} ended early by {end:?}"),
            None => format!("{suite} ended early"),
        },
        Contradiction::LastLine {
            suite,
            said,
            passed,
            failed,
        } => format!(
            "{suite} says {:?} passed, {:?} failed, {}, but {passed} passed and {failed} failed",
            said.passed,
            said.failed,
            verdict(said.failed_verdict)
        ),
        Contradiction::StrayEnd { name, result } => format!("stray end of {name}: {result:?}"),
        Contradiction::StraySuiteEnd {
            key,
            failed_verdict,
        } => format!("stray end of suite {key:?}: {}", verdict(*failed_verdict)),
        Contradiction::OutsideSuite { started } => format!("{started} outside of a suite"),
        Contradiction::Cargo(report) => format!("cargo: {}", report.line),
        Contradiction::Damaged { text } => format!("damaged: {text}"),
        Contradiction::NoEvent { file } => format!("no event in {file:?}"),
        Contradiction::Command(CommandEnd::NotStarted { error }) => format!("not started: {error}"),
        Contradiction::Command(CommandEnd::Signal { number }) => {
            format!("ended by signal {number}")
        }
        Contradiction::Command(CommandEnd::Status { code }) => format!("ended with status {code}"),
        Contradiction::Command(CommandEnd::Error { code, words }) => {
            format!("ended with status {code}: {words}")
        }
        Contradiction::Program(fault) => fault_of(fault),
        Contradiction::Cancelled(reason) => format!("cancelled: {reason:?}"),
    }
}

/// Returns what is wrong with lines of programs as a line.
fn fault_of(fault: &ProgramFault) -> String {
    match fault {
        ProgramFault::Unexplained { program, end } => format!("{program} ended by {end:?}"),
        ProgramFault::NoTests { program } => format!("{program} ran no tests"),
        ProgramFault::NoEnd { program } => format!("{program} did not end"),
        ProgramFault::NotStarted { end } => format!("no program ended by {end:?}"),
        ProgramFault::CutOff => String::from("the run was cut off"),
    }
}

/// Returns the verdict in a last line.
fn verdict(failed: bool) -> &'static str {
    if failed { "failed" } else { "ok" }
}
