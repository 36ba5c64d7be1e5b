// Made by tools/erase from crates/run_events_attempts/src/attempts/description.rt. Do not edit.
//! The description of a finished test by its attempts.

use crate::run_events_attempts::attempts::ExecuteStatus;
use crate::run_events_attempts::child::OutputSpec;
use crate::run_events_results::config::FlakyResult;
use crate::run_events_results::levels::{FinalStatusLevel, StatusLevel};

/// The description of a finished test, for reporters. It depends only on the number of attempts and
/// the result of the last one.
pub enum ExecutionDescription<'a, S: OutputSpec> {
    /// There was one attempt, and it succeeded.
    Success {
        /// The only attempt.
        single_status: &'a ExecuteStatus<S>,
    },

    /// There were several attempts, and the last one succeeded.
    Flaky {
        /// The last attempt.
        last_status: &'a ExecuteStatus<S>,

        /// The attempts before the last, in order. There is at least one.
        prior_statuses: &'a [ExecuteStatus<S>],

        /// How the test counts.
        result: FlakyResult,
    },

    /// The last attempt did not succeed.
    Failure {
        /// The first attempt.
        first_status: &'a ExecuteStatus<S>,

        /// The last attempt, which is also the first if there was only one.
        last_status: &'a ExecuteStatus<S>,

        /// The attempts after the first, in order.
        retries: &'a [ExecuteStatus<S>],
    },
}

impl<S: OutputSpec> Clone for ExecutionDescription<'_, S> {
    fn clone(&self) -> Self {
        *self
    }
}

impl<S: OutputSpec> Copy for ExecutionDescription<'_, S> {}

impl<'a, S: OutputSpec> ExecutionDescription<'a, S> {
    /// Describes attempts. There must be at least one.
    pub(crate) fn of_attempts(
        statuses: &'a [ExecuteStatus<S>],
        setting: FlakyResult,
    ) -> ExecutionDescription<'a, S> {
        match statuses {
            [single_status] if single_status.result.is_success() => {
                ExecutionDescription::Success { single_status }
            }
            [prior_statuses @ .., last_status] if last_status.result.is_success() => {
                ExecutionDescription::Flaky {
                    last_status,
                    prior_statuses,
                    result: setting,
                }
            }
            [first_status, retries @ ..] => ExecutionDescription::Failure {
                first_status,
                last_status: &statuses[statuses.len() - 1],
                retries,
            },
            [] => unreachable!("there is at least one attempt"),
        }
    }

    /// Returns true unless this is a `Success` of an attempt that did not succeed. Every description
    /// that [`ExecutionStatuses::describe`] makes is consistent, and has both levels.
    ///
    /// [`ExecutionStatuses::describe`]: crate::run_events_attempts::attempts::ExecutionStatuses::describe
    #[must_use]
    pub fn is_consistent(&self) -> bool {
        match self {
            ExecutionDescription::Success { single_status } => single_status.result.is_success(),
            ExecutionDescription::Flaky { .. } | ExecutionDescription::Failure { .. } => true,
        }
    }

    /// Returns the level of the test when it finishes: `Retry` or `Fail` for a flaky test, `Fail` for
    /// a failed one, and for a success the level that [`StatusLevel::of_success`] returns.
    ///
    /// A `Success` must be of an attempt that succeeded; [`Self::is_consistent`] tests it.
    ///
    /// # Panics
    ///
    /// Panics if the attempt of a `Success` did not succeed.
    #[track_caller]
    #[must_use]
    pub fn status_level(&self) -> StatusLevel {
        match self {
            ExecutionDescription::Success { single_status } => {
                StatusLevel::of_success(&single_status.result)
                    .expect("the attempt of a `Success` did not succeed: `is_consistent` tests it")
            }
            ExecutionDescription::Flaky { result, .. } => StatusLevel::of_flaky(*result),
            ExecutionDescription::Failure { .. } => StatusLevel::Fail,
        }
    }

    /// Returns the level of the test at the end of the run. It is like the status level, except that
    /// a flaky test which counts as passed is `Flaky`, and that a slow success is `Slow` whatever its
    /// result.
    ///
    /// A `Success` must be of an attempt that was slow or succeeded; [`Self::is_consistent`] tests
    /// that it succeeded.
    ///
    /// # Panics
    ///
    /// Panics if the attempt of a `Success` did not succeed and was not slow.
    #[track_caller]
    #[must_use]
    pub fn final_status_level(&self) -> FinalStatusLevel {
        match self {
            ExecutionDescription::Success { single_status } => {
                FinalStatusLevel::of_success(&single_status.result, single_status.is_slow)
                    .expect("the attempt of a `Success` did not succeed: `is_consistent` tests it")
            }
            ExecutionDescription::Flaky { result, .. } => FinalStatusLevel::of_flaky(*result),
            ExecutionDescription::Failure { .. } => FinalStatusLevel::Fail,
        }
    }

    /// Returns true if the setting for the output of successful tests applies. It also applies to a
    /// flaky test, even if that counts as failed.
    #[must_use]
    pub fn is_success_for_output(&self) -> bool {
        match self {
            ExecutionDescription::Success { .. } | ExecutionDescription::Flaky { .. } => true,
            ExecutionDescription::Failure { .. } => false,
        }
    }

    /// Returns the last attempt.
    #[must_use]
    pub fn last_status(&self) -> &'a ExecuteStatus<S> {
        match self {
            ExecutionDescription::Success {
                single_status: last_status,
            }
            | ExecutionDescription::Flaky { last_status, .. }
            | ExecutionDescription::Failure { last_status, .. } => last_status,
        }
    }
}
