// Made by tools/erase from crates/test_report_run/src/ended.rt. Do not edit.
//! The ends of the tests of a suite.

use crate::events::event::{TestDetails, TestResult};
use crate::notes::finish::Finish;
use crate::notes::note::{Failure, FailureKind, Note, TestOutcome};
use crate::run::counted::count;
use crate::run::error::{RunError, one_more};
use crate::run::said::time_sum;
use crate::run::suite::{FlakyTest, OverTest, Suite};
use crate::run::texts::owned;

/// The reason of the harness for a test that ran out of time.
const TIME_LIMIT: &str = "time limit exceeded";

/// Returns the failure of a test, from the line that says that it failed.
fn failure_of(details: TestDetails<'_>) -> Failure {
    Failure {
        stdout: owned(details.stdout),
        message: owned(details.message),
        reason: owned(details.reason),
        kind: match details.reason {
            Some(TIME_LIMIT) => FailureKind::TimedOut,
            _ => FailureKind::Failed,
        },
    }
}

impl Suite {
    /// Takes the end of a test, and adds its note. `order` is the number of tests that started before it. A
    /// test that passed after several attempts is kept, and has another note when its suite is over. Fails if
    /// memory runs out, or a number of the suite does not fit.
    pub(crate) fn on_end(
        &mut self,
        test: OverTest,
        order: usize,
        end: TestResult,
        details: TestDetails<'_>,
        notes: &mut Vec<Note>,
    ) -> Result<(), RunError> {
        match end {
            TestResult::Ok => self.on_passed(test, order, details, notes),
            TestResult::Failed => self.on_failed(test, details, notes),
            TestResult::Ignored => self.on_ignored(test, details, notes),
        }
    }

    /// Takes the end of a test that was ignored. Fails if memory runs out, or a number of the suite does not fit.
    fn on_ignored(
        &mut self,
        test: OverTest,
        details: TestDetails<'_>,
        notes: &mut Vec<Note>,
    ) -> Result<(), RunError> {
        self.skipped = one_more(self.skipped)?;
        let reason = owned(details.message);
        self.push_test(test, TestOutcome::Skipped { reason }, notes);
        Ok(())
    }

    /// Takes the end of a test that passed. Fails if memory runs out, or a number of the suite does not fit.
    fn on_passed(
        &mut self,
        test: OverTest,
        order: usize,
        details: TestDetails<'_>,
        notes: &mut Vec<Note>,
    ) -> Result<(), RunError> {
        self.time = time_sum(self.time, details.time);
        if test.attempts > 1 {
            self.push_flaky(&test, details, notes);
            self.on_flaky(test, order, details);
            Ok(())
        } else {
            let output = owned(details.stdout);
            self.push_finished(Finish::Passed, test, TestOutcome::Passed { output }, notes)
        }
    }

    /// Adds the note that a test passed after several attempts.
    fn push_flaky(&self, test: &OverTest, details: TestDetails<'_>, notes: &mut Vec<Note>) {
        let output = owned(details.stdout);
        let copy = OverTest {
            name: test.name.clone(),
            ..*test
        };
        let note = self.test_note(copy, TestOutcome::Passed { output });
        notes.push(Note::Flaky(note));
    }

    /// Takes the end of a test that was not running. Fails if memory runs out, or a number of the suite does not
    /// fit.
    pub(crate) fn on_stray_end(
        &mut self,
        test: OverTest,
        end: TestResult,
        details: TestDetails<'_>,
        notes: &mut Vec<Note>,
    ) -> Result<(), RunError> {
        self.name.take_test(test.name.as_str());
        self.on_end(test, 0, end, details, notes)
    }

    /// Takes the end of a test that failed.
    fn on_failed(
        &mut self,
        test: OverTest,
        details: TestDetails<'_>,
        notes: &mut Vec<Note>,
    ) -> Result<(), RunError> {
        self.time = time_sum(self.time, details.time);
        let failure = failure_of(details);
        let finish = Finish::of_failure(&failure.kind);
        self.push_finished(finish, test, TestOutcome::Failed(failure), notes)
    }

    /// Counts a test that finished, and adds its note. Fails if memory runs out, or a counter is full.
    pub(crate) fn push_finished(
        &mut self,
        finish: Finish,
        test: OverTest,
        outcome: TestOutcome,
        notes: &mut Vec<Note>,
    ) -> Result<(), RunError> {
        count(&mut self.stats, finish, test.attempts, test.slow)?;
        self.push_test(test, outcome, notes);
        Ok(())
    }

    /// Keeps a test that passed after several attempts until the suite is over. Such tests are kept in the
    /// order in which they started.
    fn on_flaky(&mut self, test: OverTest, order: usize, details: TestDetails<'_>) {
        let flaky = FlakyTest {
            test,
            order,
            stdout: owned(details.stdout),
            message: owned(details.message),
        };
        self.flaky.insert(flaky);
    }
}
