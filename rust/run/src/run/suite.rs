// Made by tools/erase from crates/test_report_run/src/suite.rt. Do not edit.
//! An open suite of a run.

use crate::events::event::SuiteEnd;
use crate::notes::note::{Note, TestNote, TestOutcome, failed_count};
use crate::run::error::{RunError, one_more};
use crate::run::flaky::FlakyTests;
use crate::run::last_line::Tally;
use crate::run::others::{EventPlace, Others, PrintPlace};
use crate::run::said::{Said, sum};
use crate::run::suite_name::SuiteName;
use deodarsieve::CancelReason;
use deodarsieve::RunStats;
use std::rc::Rc;

/// A test that is over, without its outcome.
#[derive(Clone, Debug)]
pub(crate) struct OverTest {
    /// The name of the test, without the number of attempts.
    pub(crate) name: String,

    /// The number of attempts.
    pub(crate) attempts: usize,

    /// The time that the test took, in microseconds.
    pub(crate) time: Option<u64>,

    /// The number of tests that ended before this one, or `None` if no line says that it ended.
    pub(crate) ended: Option<usize>,

    /// True if the test was slow.
    pub(crate) slow: bool,

    /// The reason why the run had been cancelled when the test became known, if it had been.
    pub(crate) cancel: Option<CancelReason>,
}

/// A test that passed after several attempts. The last line of its suite may still count it as failed.
#[derive(Clone, Debug)]
pub(crate) struct FlakyTest {
    pub(crate) test: OverTest,

    /// The number of tests that started before it.
    pub(crate) order: usize,

    pub(crate) stdout: Option<String>,
    pub(crate) message: Option<String>,
}

/// An open suite, or the tests of a file that start outside of a suite.
#[derive(Clone, Debug)]
pub(crate) struct Suite {
    /// The number, the key and the name of the suite.
    pub(crate) name: SuiteName,

    /// The number of tests that its first lines announce.
    pub(crate) test_count: Option<u128>,

    /// The number of tests that started.
    pub(crate) started: usize,

    /// The number of its first lines minus that of its last lines.
    pub(crate) open_lines: usize,

    /// The numbers and the verdict of its last lines.
    pub(crate) said: Said,

    /// The statistics of its finished tests, except those in `flaky`.
    pub(crate) stats: RunStats,

    /// The number of tests that crashed.
    pub(crate) crashed: usize,

    /// The number of tests that were ignored.
    pub(crate) skipped: usize,

    /// The tests that passed after several attempts.
    pub(crate) flaky: FlakyTests,

    /// The sum of the times of tests, in microseconds.
    pub(crate) time: Option<u64>,

    /// The place of the first print after its first line.
    pub(crate) start: PrintPlace,

    /// The place of its last event.
    pub(crate) last_event: EventPlace,

    /// Why the run was cancelled before the suite was over, if it was. The run sets it when the suite is over.
    pub(crate) cancel: Option<CancelReason>,
}

impl Suite {
    /// Returns a suite after its first line. `others` are the other lines of the file before it.
    pub(crate) fn new(
        number: usize,
        key: Option<String>,
        heading: Option<Rc<String>>,
        test_count: Option<u128>,
        others: &Others,
    ) -> Suite {
        let name = SuiteName::new(number, key, heading);
        Suite::named(name, test_count, others.print_place(), others.event_place())
    }

    /// Returns the tests of a file that start outside of a suite, before the first of them.
    pub(crate) fn outside() -> Suite {
        Suite::named(
            SuiteName::outside(),
            None,
            PrintPlace::default(),
            EventPlace::default(),
        )
    }

    /// Returns a suite with a name, after its first line.
    fn named(
        name: SuiteName,
        test_count: Option<u128>,
        start: PrintPlace,
        last_event: EventPlace,
    ) -> Suite {
        Suite {
            name,
            test_count,
            started: 0,
            open_lines: 1,
            said: Said::default(),
            stats: RunStats::default(),
            crashed: 0,
            skipped: 0,
            flaky: FlakyTests::new(),
            time: None,
            start,
            last_event,
            cancel: None,
        }
    }

    /// Takes another first line of the suite. Fails if the number of these lines, or of the tests that they
    /// announce, does not fit.
    pub(crate) fn join(&mut self, test_count: Option<u128>) -> Result<(), RunError> {
        self.open_lines = one_more(self.open_lines)?;
        self.test_count = sum(self.test_count, test_count)?;
        Ok(())
    }

    /// Takes a last line of the suite. Returns true if the suite now has as many last lines as first lines. Fails only
    /// if a sum of the numbers in its last lines does not fit.
    pub(crate) fn on_last_line(&mut self, end: SuiteEnd<'_>) -> Result<bool, RunError> {
        self.said = self.said.with_line(end)?;
        self.open_lines = self.open_lines.saturating_sub(1);
        Ok(self.open_lines == 0)
    }

    /// Takes the start of a test. Fails if memory runs out, or the number of tests that started does not fit.
    pub(crate) fn on_start(&mut self, name: &str) -> Result<(), RunError> {
        self.started = one_more(self.started)?;
        self.name.take_test(name);
        Ok(())
    }

    /// Returns true if the suite has this key, or has no key if `key` is `None`.
    pub(crate) fn has_key(&self, key: Option<&str>) -> bool {
        match (&self.name.key, key) {
            (Some(own), Some(key)) => own.as_str() == key,
            (None, None) => true,
            _ => false,
        }
    }

    /// Adds the note of a test of the suite.
    pub(crate) fn push_test(&self, test: OverTest, outcome: TestOutcome, notes: &mut Vec<Note>) {
        notes.push(Note::Test(self.test_note(test, outcome)));
    }

    /// Returns what is known of a test of the suite.
    pub(crate) fn test_note(&self, test: OverTest, outcome: TestOutcome) -> TestNote {
        TestNote {
            suite: self.name.shown(),
            name: test.name,
            attempts: test.attempts,
            time: test.time,
            ended: test.ended,
            slow: test.slow,
            cancel: test.cancel,
            outcome,
        }
    }

    /// Returns the numbers of tests of the suite. `left` is the number of running tests. Fails if the number
    /// of passed tests does not fit.
    pub(crate) fn tally(&self, left: usize) -> Result<Tally, RunError> {
        let flaky = self.flaky.len();
        let passed = self
            .stats
            .passed
            .checked_add(flaky)
            .ok_or(RunError::CounterFull)?;
        Ok(Tally {
            test_count: self.test_count,
            passed,
            flaky,
            failed: failed_count(&self.stats),
            skipped: self.skipped,
            left,
        })
    }
}
