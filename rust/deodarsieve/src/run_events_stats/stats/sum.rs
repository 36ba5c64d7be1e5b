// Made by tools/erase from crates/run_events_stats/src/stats/sum.rt. Do not edit.
//! The sum of the statistics of two parts of a run.

use crate::run_events_results::results::CancelReason;
use crate::run_events_stats::stats::{CounterFull, RunStats};

impl RunStats {
    /// Adds the statistics of another part of the run, such as another suite. Each number becomes the
    /// sum of both, also the numbers of what was to run and of skipped tests. The reason to cancel
    /// becomes the greater one, if there is one.
    ///
    /// # Errors
    ///
    /// The error is [`CounterFull`] if a sum does not fit `usize`. The statistics are then unchanged.
    pub fn try_add(&mut self, part: &RunStats) -> Result<(), CounterFull> {
        if !self.has_room_for(part) {
            return Err(CounterFull);
        }
        self.add(part);
        Ok(())
    }

    /// Adds the statistics of another part of the run. Each sum must fit `usize`.
    fn add(&mut self, part: &RunStats) {
        self.initial_run_count += part.initial_run_count;
        self.finished_count += part.finished_count;
        self.setup_scripts_initial_count += part.setup_scripts_initial_count;
        self.setup_scripts_finished_count += part.setup_scripts_finished_count;
        self.setup_scripts_passed += part.setup_scripts_passed;
        self.setup_scripts_failed += part.setup_scripts_failed;
        self.setup_scripts_exec_failed += part.setup_scripts_exec_failed;
        self.setup_scripts_timed_out += part.setup_scripts_timed_out;
        self.passed += part.passed;
        self.passed_slow += part.passed_slow;
        self.passed_timed_out += part.passed_timed_out;
        self.flaky += part.flaky;
        self.failed += part.failed;
        self.failed_slow += part.failed_slow;
        self.failed_timed_out += part.failed_timed_out;
        self.leaky += part.leaky;
        self.leaky_failed += part.leaky_failed;
        self.exec_failed += part.exec_failed;
        self.skipped += part.skipped;
        self.cancel_reason = greater_reason(self.cancel_reason, part.cancel_reason);
    }

    /// Returns true if each sum with the counters of another part fits `usize`.
    fn has_room_for(&self, part: &RunStats) -> bool {
        fits(self.initial_run_count, part.initial_run_count)
            && fits(
                self.setup_scripts_initial_count,
                part.setup_scripts_initial_count,
            )
            && fits(self.skipped, part.skipped)
            && self.has_room_for_tests(part)
            && self.has_room_for_scripts(part)
    }

    /// Returns true if each sum with the counters of finished tests of another part fits `usize`.
    pub(super) fn has_room_for_tests(&self, part: &RunStats) -> bool {
        fits(self.finished_count, part.finished_count)
            && fits(self.passed, part.passed)
            && fits(self.passed_slow, part.passed_slow)
            && fits(self.passed_timed_out, part.passed_timed_out)
            && fits(self.flaky, part.flaky)
            && fits(self.failed, part.failed)
            && fits(self.failed_slow, part.failed_slow)
            && fits(self.failed_timed_out, part.failed_timed_out)
            && fits(self.leaky, part.leaky)
            && fits(self.leaky_failed, part.leaky_failed)
            && fits(self.exec_failed, part.exec_failed)
    }

    /// Returns true if each sum with the counters of finished scripts of another part fits `usize`.
    pub(super) fn has_room_for_scripts(&self, part: &RunStats) -> bool {
        fits(
            self.setup_scripts_finished_count,
            part.setup_scripts_finished_count,
        ) && fits(self.setup_scripts_passed, part.setup_scripts_passed)
            && fits(self.setup_scripts_failed, part.setup_scripts_failed)
            && fits(
                self.setup_scripts_exec_failed,
                part.setup_scripts_exec_failed,
            )
            && fits(self.setup_scripts_timed_out, part.setup_scripts_timed_out)
    }
}

/// Returns the greater of two reasons to cancel a run. No reason is less than any.
fn greater_reason(
    reason: Option<CancelReason>,
    other: Option<CancelReason>,
) -> Option<CancelReason> {
    match (reason, other) {
        (Some(one), Some(two)) if one < two => other,
        (Some(_), _) => reason,
        (None, _) => other,
    }
}

/// Returns true if the sum of two counters fits `usize`.
fn fits(counter: usize, more: usize) -> bool {
    counter.checked_add(more).is_some()
}
