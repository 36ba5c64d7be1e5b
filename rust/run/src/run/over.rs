// Made by tools/erase from crates/test_report_run/src/over.rt. Do not edit.
//! A suite that is over.

use crate::events::program::ProgramEnd;
use crate::notes::finish::Finish;
use crate::notes::note::{
    Contradiction, Crash, Failure, FailureKind, NotRun, Note, SuiteNote, TestOutcome, failed_count,
};
use crate::run::contradictions::push_contradiction;
use crate::run::early::Ending;
use crate::run::error::{RunError, one_more};
use crate::run::flaky::FlakyTests;
use crate::run::last_line::{Explanation, contradicts, explained};
use crate::run::others::Others;
use crate::run::running::RunningTest;
use crate::run::suite::{FlakyTest, OverTest, Suite};
use std::rc::Rc;

/// The numbers of a suite that its finished tests do not give.
#[derive(Clone, Copy, Debug)]
pub(crate) struct Rest {
    /// The number of skipped tests.
    pub(crate) skipped: u128,

    /// The number of tests that started, and that neither ended nor were skipped.
    pub(crate) left: usize,

    /// The time in microseconds.
    pub(crate) time: Option<u64>,
}

/// Returns a copy of how a test crashed, which shares the text of the prints.
fn copy_of(crash: &Crash) -> Crash {
    Crash {
        running: crash.running,
        has_key: crash.has_key,
        end: crash.end,
        cause: crash.cause.clone(),
        prints: crash.prints.clone(),
        last: crash.last.clone(),
        above: crash.above,
    }
}

/// Returns the outcome of a test without end that did not fail: it was skipped, or else it was stopped.
fn outcome_of_left(is_skipped: bool) -> TestOutcome {
    if is_skipped {
        TestOutcome::Skipped { reason: None }
    } else {
        TestOutcome::Stopped
    }
}

/// Returns how a flaky test with this output and this message counts, as failed or as passed, and its outcome.
fn counted_flaky(
    has_failed: bool,
    stdout: Option<String>,
    message: Option<String>,
) -> (Finish, TestOutcome) {
    if has_failed {
        let failure = Failure {
            kind: FailureKind::Flaky,
            stdout,
            message,
            reason: None,
        };
        (Finish::FlakyFailed, TestOutcome::Failed(failure))
    } else {
        (Finish::Passed, TestOutcome::Passed { output: stdout })
    }
}

impl Suite {
    /// Returns a test of the suite that has no line of its end.
    fn over(&self, test: RunningTest) -> OverTest {
        OverTest {
            name: test.name,
            attempts: 1,
            time: None,
            ended: None,
            slow: test.slow,
            cancel: self.cancel,
        }
    }

    /// Ends the suite without a last line, and adds its notes. `left` are its running tests, and `how` says which of
    /// them crashed. `others` are the lines of the file that are no events. The suite must not be used afterwards. Fails if
    /// memory runs out, or a number of the suite does not fit.
    pub(crate) fn end_early(
        &mut self,
        others: &Others,
        how: &Ending,
        left: Vec<RunningTest>,
        notes: &mut Vec<Note>,
    ) -> Result<(), RunError> {
        let (crashed, stopped) = self.parted(how, left);
        let (crashes, left) = (crashed.len(), stopped.len());
        self.crash_left(others, how.end, crashed, notes)?;
        self.push_left(stopped, false, notes);
        self.release_flaky(false, notes)?;
        self.push_early_end(how.end, crashes, notes);
        let rest = Rest {
            skipped: self.skipped as u128,
            left,
            time: self.time,
        };
        self.push_numbers(rest, notes);
        Ok(())
    }

    /// Returns those of the running tests of the suite that crashed, and those that were stopped.
    fn parted(&self, how: &Ending, left: Vec<RunningTest>) -> (Vec<RunningTest>, Vec<RunningTest>) {
        let (mut crashed, mut stopped) = (Vec::new(), Vec::new());
        for test in left {
            if self.cancel.is_none() && how.crashes(&test) {
                crashed.push(test);
            } else {
                stopped.push(test);
            }
        }
        (crashed, stopped)
    }

    /// Adds that tests without end were skipped if `are_skipped` is true, or else that they were stopped.
    fn push_left(&self, tests: Vec<RunningTest>, are_skipped: bool, notes: &mut Vec<Note>) {
        for test in tests {
            self.push_test(self.over(test), outcome_of_left(are_skipped), notes);
        }
    }

    /// Counts running tests of the suite as crashed. `others` are the lines of the file that are no events, and `end` is
    /// how the program ended.
    fn crash_left(
        &mut self,
        others: &Others,
        end: Option<ProgramEnd>,
        mut left: Vec<RunningTest>,
        notes: &mut Vec<Note>,
    ) -> Result<(), RunError> {
        if left.is_empty() {
            return Ok(());
        }
        let running = left.len();
        let later = left.split_off(1);
        let mut crash = self.crash(others, end, running);
        self.crash_all(&crash, left, notes)?;
        crash.above = true;
        self.crash_all(&crash, later, notes)
    }

    /// Counts all these tests as crashed in this way.
    fn crash_all(
        &mut self,
        crash: &Crash,
        tests: Vec<RunningTest>,
        notes: &mut Vec<Note>,
    ) -> Result<(), RunError> {
        for test in tests {
            self.crashed = one_more(self.crashed)?;
            let kind = FailureKind::Crashed(copy_of(crash));
            self.fail(test, kind, notes)?;
        }
        Ok(())
    }

    /// Returns how the first test of the suite crashed. `running` is the number of its tests that crashed.
    fn crash(&self, others: &Others, end: Option<ProgramEnd>, running: usize) -> Crash {
        Crash {
            running,
            has_key: self.name.key.is_some(),
            end,
            prints: Rc::new(others.prints_from(self.start)),
            last: others.last_prints_from(self.start),
            cause: others.cause_after(self.last_event),
            above: false,
        }
    }

    /// Counts a test without end as failed.
    fn fail(
        &mut self,
        test: RunningTest,
        kind: FailureKind,
        notes: &mut Vec<Note>,
    ) -> Result<(), RunError> {
        let failure = Failure {
            kind,
            stdout: None,
            message: None,
            reason: None,
        };
        let over = self.over(test);
        self.push_finished(Finish::Failed, over, TestOutcome::Failed(failure), notes)
    }

    /// Adds the contradiction of a suite that ends early, if there is one.
    fn push_early_end(&self, end: Option<ProgramEnd>, crashed: usize, notes: &mut Vec<Note>) {
        match self.name.shown() {
            Some(suite) if crashed == 0 => {
                let contradiction = match self.cancel {
                    Some(reason) => Contradiction::Cancelled(reason),
                    None => Contradiction::EndedEarly { suite, end },
                };
                push_contradiction(contradiction, notes);
            }
            None if self.started > 0 => {
                let started = self.started;
                push_contradiction(Contradiction::OutsideSuite { started }, notes);
            }
            _ => {}
        }
    }

    /// Counts the flaky tests, as failed or as passed.
    fn release_flaky(&mut self, have_failed: bool, notes: &mut Vec<Note>) -> Result<(), RunError> {
        let flaky_tests = std::mem::replace(&mut self.flaky, FlakyTests::new());
        for flaky in flaky_tests.tests.into_values() {
            self.count_flaky(flaky, have_failed, notes)?;
        }
        Ok(())
    }

    /// Counts a flaky test, as failed or as passed.
    fn count_flaky(
        &mut self,
        flaky: FlakyTest,
        has_failed: bool,
        notes: &mut Vec<Note>,
    ) -> Result<(), RunError> {
        let FlakyTest {
            test,
            order: _,
            stdout,
            message,
        } = flaky;
        let test = OverTest {
            cancel: self.cancel,
            ..test
        };
        let (finish, outcome) = counted_flaky(has_failed, stdout, message);
        self.push_finished(finish, test, outcome, notes)
    }

    /// Ends the suite after its last line, and adds its notes. `left` are its running tests. The suite must not be used
    /// afterwards. Fails if memory runs out, or a number of the suite does not fit.
    pub(crate) fn end(
        &mut self,
        left: Vec<RunningTest>,
        notes: &mut Vec<Note>,
    ) -> Result<(), RunError> {
        let explained = self.explained(left.len())?;
        let mut skipped = left;
        let others = skipped.split_off(explained.skipped);
        self.push_left(skipped, true, notes);
        let left = self.fail_lost(explained.others_failed, others, notes)?;
        self.release_flaky(explained.flaky_failed, notes)?;
        self.push_last_line(notes)?;
        let rest = Rest {
            skipped: self.skipped as u128 + explained.skipped as u128 + explained.nameless,
            left,
            time: self.said.time.or(self.time),
        };
        self.push_numbers(rest, notes);
        Ok(())
    }

    /// Returns which tests the last line explains. `left` is the number of running tests. Fails if a number that
    /// decides this does not fit.
    fn explained(&self, left: usize) -> Result<Explanation, RunError> {
        let said = self.said.numbers()?;
        let ignored = self.said.ignored.unwrap_or(0);
        Ok(explained(self.tally(left)?, said, ignored))
    }

    /// Counts tests without end as failed if `have_failed` is true. Returns how many are not counted.
    fn fail_lost(
        &mut self,
        have_failed: bool,
        tests: Vec<RunningTest>,
        notes: &mut Vec<Note>,
    ) -> Result<usize, RunError> {
        if !have_failed {
            return Ok(tests.len());
        }
        for test in tests {
            self.fail(test, FailureKind::WithoutEnd, notes)?;
        }
        Ok(0)
    }

    /// Adds a contradiction if the last line contradicts the tests. Fails if memory runs out, or the number of passed
    /// tests that the last lines say does not fit.
    fn push_last_line(&self, notes: &mut Vec<Note>) -> Result<(), RunError> {
        let said = self.said.numbers()?;
        let (passed, failed) = (self.stats.passed, failed_count(&self.stats));
        match self.name.shown() {
            Some(suite) if contradicts(said, passed, failed) => {
                let contradiction = Contradiction::LastLine {
                    suite,
                    said,
                    passed,
                    failed,
                };
                push_contradiction(contradiction, notes);
                Ok(())
            }
            _ => Ok(()),
        }
    }

    /// Adds the numbers of the suite, after how many of its tests did not run if that is not 0.
    fn push_numbers(&self, rest: Rest, notes: &mut Vec<Note>) {
        let initial_run_count = self.initial_run_count(rest);
        let not_run = initial_run_count - self.stats.finished_count as u128;
        if let (Some(suite), true) = (self.name.shown(), not_run > 0) {
            notes.push(Note::NotRun(NotRun {
                suite,
                not_run,
                initial_run_count,
            }));
        }
        notes.push(Note::Suite(SuiteNote {
            name: self.name.shown(),
            stats: self.stats,
            skipped: rest.skipped,
            not_run,
            crashed: self.crashed,
            time: rest.time,
        }));
    }

    /// Returns the number of tests that were to run.
    fn initial_run_count(&self, rest: Rest) -> u128 {
        let least = self.stats.finished_count as u128 + rest.left as u128;
        match self.test_count {
            Some(test_count) => test_count.saturating_sub(rest.skipped).max(least),
            None => least,
        }
    }
}
