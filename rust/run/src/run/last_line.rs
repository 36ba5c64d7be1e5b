// Made by tools/erase from crates/test_report_run/src/last_line.rt. Do not edit.
//! The tests that the last line of a suite explains.

use crate::notes::note::SaidNumbers;

/// The numbers of tests of a suite before its last line is looked at.
#[derive(Clone, Copy, Debug)]
pub(crate) struct Tally {
    /// The number of tests that the suite announced.
    pub(crate) test_count: Option<u128>,

    /// The number of tests that ended `ok`.
    pub(crate) passed: usize,

    /// The number of those that are flaky.
    pub(crate) flaky: usize,

    /// The number of tests that ended `failed`.
    pub(crate) failed: usize,

    /// The number of tests that ended `ignored`.
    pub(crate) skipped: usize,

    /// The number of tests that are running.
    pub(crate) left: usize,
}

impl Tally {
    /// Returns the number of tests that ended.
    fn ended(self) -> u128 {
        self.passed as u128 + self.failed as u128 + self.skipped as u128
    }

    /// Returns the most tests that can be skipped in addition to those that ended.
    fn room(self) -> u128 {
        match self.test_count {
            Some(count) => count.saturating_sub(self.ended()),
            None => self.left as u128,
        }
    }

    /// Returns the number of tests that have no line.
    fn not_started(self) -> u128 {
        match self.test_count {
            Some(count) => count.saturating_sub(self.ended() + self.left as u128),
            None => 0,
        }
    }
}

/// The tests that the last line of a suite explains.
#[derive(Clone, Copy, Debug)]
pub(crate) struct Explanation {
    /// The number of skipped tests that have no line.
    pub(crate) nameless: u128,

    /// The number of running tests that were skipped.
    pub(crate) skipped: usize,

    /// True if the other running tests failed.
    pub(crate) others_failed: bool,

    /// True if the flaky tests failed.
    pub(crate) flaky_failed: bool,
}

/// Returns which tests the last line of a suite explains. `said` are its numbers, and `ignored` is the
/// number of tests that it counts as ignored.
pub(crate) fn explained(tally: Tally, said: SaidNumbers, ignored: u128) -> Explanation {
    let more = ignored
        .saturating_sub(tally.skipped as u128)
        .min(tally.room());
    let nameless = more.min(tally.not_started());
    let skipped = skipped_left(tally, more - nameless);
    let others = tally.left - skipped;
    let others_failed = others > 0 && says_failed(said, tally.failed as u128 + others as u128);
    let failed = if others_failed {
        tally.failed as u128 + others as u128
    } else {
        tally.failed as u128
    };
    Explanation {
        nameless,
        skipped,
        others_failed,
        flaky_failed: says_flaky_failed(tally, said, failed),
    }
}

/// Returns how many running tests are skipped if `more` tests are.
fn skipped_left(tally: Tally, more: u128) -> usize {
    match usize::try_from(more) {
        Ok(more) => more.min(tally.left),
        Err(_) => tally.left,
    }
}

/// Returns true if the last line counts at least `least` tests as failed.
fn says_failed(said: SaidNumbers, least: u128) -> bool {
    match said.failed {
        Some(failed) => failed >= least,
        None => false,
    }
}

/// Returns true if the last line counts all flaky tests as failed. `failed` is the number of other failed
/// tests.
fn says_flaky_failed(tally: Tally, said: SaidNumbers, failed: u128) -> bool {
    match (said.failed, said.passed) {
        (Some(said_failed), Some(said_passed)) => {
            tally.flaky > 0
                && said_failed == failed + tally.flaky as u128
                && tally.passed >= tally.flaky
                && said_passed == (tally.passed - tally.flaky) as u128
        }
        _ => false,
    }
}

/// Returns true if the last line of a suite contradicts its tests: `passed` of them passed, and `failed`
/// of them failed.
pub(crate) fn contradicts(said: SaidNumbers, passed: usize, failed: usize) -> bool {
    said.failed_verdict != (failed > 0)
        || is_other(said.passed, passed)
        || is_other(said.failed, failed)
}

/// Returns true if a last line has a number, and it is not this one.
fn is_other(said: Option<u128>, number: usize) -> bool {
    match said {
        Some(said) => said != number as u128,
        None => false,
    }
}
