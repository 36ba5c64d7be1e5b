// Made by tools/erase from crates/run_events/src/events/unit_state.rt. Do not edit.
//! The state of a unit during a run.

use crate::run_events::events::terminate::{UnitTerminateMethod, UnitTerminateReason};
use crate::run_events_results::results::ExecutionResultDescription;
use core::time::Duration;

/// The state of a test or a setup script.
#[derive(Clone, Debug)]
pub enum UnitState {
    /// The process is running.
    Running {
        /// The id of the process.
        pid: u32,

        /// How long it has been running.
        time_taken: Duration,

        /// The time after which it counted as slow, if it did.
        slow_after: Option<Duration>,
    },

    /// The process has ended, and the runner waits for its output to be closed. Output that is still
    /// open after that is a leak.
    Exiting {
        /// The id of the process.
        pid: u32,

        /// How long it ran.
        time_taken: Duration,

        /// The time after which it counted as slow, if it did.
        slow_after: Option<Duration>,

        /// The result unless the process leaks, or `None` if its status could not be read. `None`
        /// counts as a failure.
        tentative_result: Option<ExecutionResultDescription>,

        /// How long the runner has waited.
        waiting_duration: Duration,

        /// How much longer the runner will wait.
        remaining: Duration,
    },

    /// The runner is ending its process.
    Terminating(UnitTerminatingState),

    /// The process has ended, and the runner waits for nothing more of it.
    Exited {
        /// The result.
        result: ExecutionResultDescription,

        /// How long it ran.
        time_taken: Duration,

        /// The time after which it counted as slow, if it did.
        slow_after: Option<Duration>,
    },

    /// An attempt of a test failed, and the runner waits before the next one. A setup script is never
    /// in this state, because it is run only once.
    DelayBeforeNextAttempt {
        /// The result of the previous attempt.
        previous_result: ExecutionResultDescription,

        /// True if the previous attempt was slow.
        previous_slow: bool,

        /// How long the runner has waited.
        waiting_duration: Duration,

        /// How much longer the runner will wait.
        remaining: Duration,
    },
}

impl UnitState {
    /// Returns true if the output that comes with the state is that of the current attempt. This holds
    /// in every state except the wait between two attempts.
    #[must_use]
    pub fn has_valid_output(&self) -> bool {
        match self {
            UnitState::Running { .. }
            | UnitState::Exiting { .. }
            | UnitState::Terminating(_)
            | UnitState::Exited { .. } => true,
            UnitState::DelayBeforeNextAttempt { .. } => false,
        }
    }
}

/// The state of a unit that the runner is ending.
#[derive(Clone, Debug)]
pub struct UnitTerminatingState {
    /// The id of the process.
    pub pid: u32,

    /// How long it had been running before.
    pub time_taken: Duration,

    /// Why the runner ends it.
    pub reason: UnitTerminateReason,

    /// How the runner ends it.
    pub method: UnitTerminateMethod,

    /// How long the runner has waited for the process to end.
    pub waiting_duration: Duration,

    /// How much longer the runner will wait before it kills the process.
    pub remaining: Duration,
}
