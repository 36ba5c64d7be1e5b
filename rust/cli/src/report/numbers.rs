//! How many tests of a suite or of a run passed, and how many did not.

use deodarsieve::RunStats;
use deodarsieve_run::{RunEnd, SuiteNote, failed_count};
use serde::Serialize;

/// Numbers of tests.
#[derive(Clone, Copy, Serialize)]
pub(crate) struct Numbers {
    /// The tests that finished. The others are not among them.
    pub(crate) finished: usize,

    pub(crate) passed: usize,

    /// The tests that passed after several attempts.
    pub(crate) flaky: usize,

    /// The tests that passed and were slow.
    pub(crate) slow: usize,

    pub(crate) failed: usize,

    /// The failed tests that ran out of time.
    pub(crate) timed_out: usize,

    /// The failed tests that crashed.
    pub(crate) crashed: usize,

    pub(crate) skipped: u128,

    pub(crate) not_run: u128,
}

impl Numbers {
    /// Returns the numbers of a suite.
    pub(crate) fn of_suite(suite: &SuiteNote) -> Numbers {
        Numbers::of(&suite.stats, suite.crashed, suite.skipped, suite.not_run)
    }

    /// Returns the numbers of a run.
    pub(crate) fn of_run(end: &RunEnd) -> Numbers {
        Numbers::of(&end.stats, end.crashed, end.skipped, end.not_run)
    }

    /// Returns numbers of tests: of those that finished, by their statistics, and of the others.
    fn of(stats: &RunStats, crashed: usize, skipped: u128, not_run: u128) -> Numbers {
        Numbers {
            finished: stats.finished_count,
            passed: stats.passed,
            flaky: stats.flaky,
            slow: stats.passed_slow,
            failed: failed_count(stats),
            timed_out: stats.failed_timed_out,
            crashed,
            skipped,
            not_run,
        }
    }

    /// Returns the numbers of tests that passed, failed, were skipped and did not run, each with its words and its
    /// class in a page. Numbers that are 0 are left out.
    pub(crate) fn parts(self) -> impl Iterator<Item = (u128, &'static str, &'static str)> {
        let parts = [
            (self.passed as u128, "passed", "passed"),
            (self.failed as u128, "failed", "failed"),
            (self.skipped, "skipped", "skipped"),
            (self.not_run, "not run", "rest"),
        ];
        parts.into_iter().filter(|(number, _, _)| *number > 0)
    }

    /// Returns true if there are no tests.
    pub(crate) fn are_zero(self) -> bool {
        self.parts().next().is_none()
    }

    /// Returns the numbers in words.
    pub(crate) fn words(self) -> String {
        if self.are_zero() {
            return "no tests".to_string();
        }
        let words = self
            .parts()
            .map(|(number, words, _)| format!("{number} {words}"));
        words.collect::<Vec<_>>().join(", ")
    }
}
