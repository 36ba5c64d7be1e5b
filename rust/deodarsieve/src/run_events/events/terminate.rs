// Made by tools/erase from crates/run_events/src/events/terminate.rt. Do not edit.
//! How and why a runner ends a unit.

use core::fmt;

/// Why the runner ends a running unit, displayed as `timeout`, `signal` or `interrupt`.
#[derive(Clone, Copy, Debug, PartialEq, Eq)]
pub enum UnitTerminateReason {
    /// The unit ran out of time.
    Timeout,

    /// The runner got a signal to end.
    Signal,

    /// The user interrupted the run.
    Interrupt,
}

impl fmt::Display for UnitTerminateReason {
    fn fmt(&self, f: &mut fmt::Formatter<'_>) -> fmt::Result {
        match self {
            UnitTerminateReason::Timeout => f.write_str("timeout"),
            UnitTerminateReason::Signal => f.write_str("signal"),
            UnitTerminateReason::Interrupt => f.write_str("interrupt"),
        }
    }
}

/// How the runner ends a unit.
#[derive(Clone, Copy, Debug, PartialEq, Eq)]
pub enum UnitTerminateMethod {
    /// By a signal.
    Signal(UnitTerminateSignal),

    /// By ending the Windows job object that holds its process.
    #[cfg(windows)]
    JobObject,

    /// The runner waits for the unit to exit. If it does not, its job object is ended.
    #[cfg(windows)]
    Wait,
}

/// The signal by which the runner ends a unit.
#[derive(Clone, Copy, Debug, PartialEq, Eq)]
pub enum UnitTerminateSignal {
    /// An interrupt, for example from the keyboard.
    Interrupt,

    /// A request to end.
    Term,

    /// The terminal was closed.
    Hangup,

    /// A request to quit, for example from the keyboard.
    Quit,

    /// A signal that ends a process at once.
    Kill,
}

/// Writes the signal's name, for example `SIGTERM`.
impl fmt::Display for UnitTerminateSignal {
    fn fmt(&self, f: &mut fmt::Formatter<'_>) -> fmt::Result {
        f.write_str(self.name())
    }
}

impl UnitTerminateSignal {
    /// Returns the signal's name.
    fn name(self) -> &'static str {
        match self {
            UnitTerminateSignal::Interrupt => "SIGINT",
            UnitTerminateSignal::Term => "SIGTERM",
            UnitTerminateSignal::Hangup => "SIGHUP",
            UnitTerminateSignal::Quit => "SIGQUIT",
            UnitTerminateSignal::Kill => "SIGKILL",
        }
    }
}
