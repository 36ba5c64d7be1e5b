//! The states of units.

use deodarsieve::{
    ExecutionResultDescription, UnitState, UnitTerminateMethod, UnitTerminateReason,
    UnitTerminateSignal, UnitTerminatingState,
};
use std::time::Duration;

/// A unit that ran out of time and that the runner ends by a request to end.
pub(super) fn ending() -> UnitTerminatingState {
    UnitTerminatingState {
        pid: 4_003,
        time_taken: Duration::from_secs(90),
        reason: UnitTerminateReason::Timeout,
        method: UnitTerminateMethod::Signal(UnitTerminateSignal::Term),
        waiting_duration: Duration::from_secs(3),
        remaining: Duration::from_secs(7),
    }
}

/// A test that waits for its second attempt.
pub(super) fn delayed() -> UnitState {
    UnitState::DelayBeforeNextAttempt {
        previous_result: ExecutionResultDescription::ExecFail,
        previous_slow: true,
        waiting_duration: Duration::from_secs(1),
        remaining: Duration::from_secs(4),
    }
}

fn running() -> UnitState {
    UnitState::Running {
        pid: 4_001,
        time_taken: Duration::from_secs(2),
        slow_after: None,
    }
}

fn exiting() -> UnitState {
    UnitState::Exiting {
        pid: 4_002,
        time_taken: Duration::from_secs(61),
        slow_after: Some(Duration::from_secs(60)),
        tentative_result: Some(ExecutionResultDescription::Pass),
        waiting_duration: Duration::from_millis(20),
        remaining: Duration::from_millis(80),
    }
}

fn exited() -> UnitState {
    UnitState::Exited {
        result: ExecutionResultDescription::Pass,
        time_taken: Duration::from_secs(61),
        slow_after: Some(Duration::from_secs(60)),
    }
}

/// Returns true if its fields are those that were put in.
pub(super) fn is_as_made(state: &UnitState) -> bool {
    match state {
        UnitState::Running {
            pid,
            time_taken,
            slow_after,
        } => *pid == 4_001 && *time_taken == Duration::from_secs(2) && slow_after.is_none(),
        UnitState::Exiting {
            pid,
            time_taken,
            slow_after,
            tentative_result,
            waiting_duration,
            remaining,
        } => {
            *pid == 4_002
                && *time_taken == Duration::from_secs(61)
                && *slow_after == Some(Duration::from_secs(60))
                && *tentative_result == Some(ExecutionResultDescription::Pass)
                && *waiting_duration == Duration::from_millis(20)
                && *remaining == Duration::from_millis(80)
        }
        UnitState::Terminating(state) => is_as_ending(state),
        UnitState::Exited {
            result,
            time_taken,
            slow_after,
        } => {
            *result == ExecutionResultDescription::Pass
                && *time_taken == Duration::from_secs(61)
                && *slow_after == Some(Duration::from_secs(60))
        }
        UnitState::DelayBeforeNextAttempt {
            previous_result,
            previous_slow,
            waiting_duration,
            remaining,
        } => {
            *previous_result == ExecutionResultDescription::ExecFail
                && *previous_slow
                && *waiting_duration == Duration::from_secs(1)
                && *remaining == Duration::from_secs(4)
        }
    }
}

/// Returns true if it is being ended as `ending` says.
fn is_as_ending(state: &UnitTerminatingState) -> bool {
    state.pid == 4_003
        && state.time_taken == Duration::from_secs(90)
        && matches!(state.reason, UnitTerminateReason::Timeout)
        && state.method == UnitTerminateMethod::Signal(UnitTerminateSignal::Term)
        && state.waiting_duration == Duration::from_secs(3)
        && state.remaining == Duration::from_secs(7)
}

#[test]
fn output_is_valid_but_between_attempts() {
    assert!(running().has_valid_output(), "a unit runs");
    assert!(exiting().has_valid_output(), "a unit exits");
    assert!(
        UnitState::Terminating(ending()).has_valid_output(),
        "a unit is ended"
    );
    assert!(exited().has_valid_output(), "a unit exited");
    assert!(
        !delayed().has_valid_output(),
        "a test waits for its next attempt"
    );
}

#[test]
fn states_are_read_back() {
    assert!(is_as_made(&running()), "a unit runs");
    assert!(is_as_made(&exiting()), "a unit exits");
    assert!(is_as_ending(&ending().clone()), "a unit is ended");
    assert!(is_as_made(&exited()), "a unit exited");
    assert!(is_as_made(&delayed()), "a test waits for its next attempt");
}
