// Made by tools/erase from crates/run_events/src/events.rt. Do not edit.
//! The events of a run, for reporters.
//!
//! The dispatcher of a runner makes an event when something happens, and passes it to the reporters
//! one after the other: the displayer, which shows the run on a terminal; the JUnit writer, which
//! keeps the finished units and writes its report at the end; and the recorder, which stores the run
//! so that it can be shown again. The counters in an event are a copy of the dispatcher's counters at
//! that time.
//!
//! The dispatcher must make sure that the fields of an event agree with each other and with earlier
//! events. Nothing here checks it.

use crate::run_events::config::Moment;
use alloc::boxed::Box;
use core::time::Duration;

mod info;
mod kind;
mod not_seen;
mod slots;
mod terminate;
mod unit_state;

pub use crate::run_events::events::info::{
    InfoResponse, SetupScriptInfoResponse, TestInfoResponse,
};
pub use crate::run_events::events::kind::TestEventKind;
pub use crate::run_events::events::not_seen::TestsNotSeen;
pub use crate::run_events::events::slots::TestSlotAssignment;
pub use crate::run_events::events::terminate::{
    UnitTerminateMethod, UnitTerminateReason, UnitTerminateSignal,
};
pub use crate::run_events::events::unit_state::{UnitState, UnitTerminatingState};

/// An event for a reporter.
#[derive(Clone, Debug)]
pub enum ReporterEvent<'a> {
    /// Some time passed. This event comes at intervals, so that a displayer can move its progress
    /// bar.
    Tick,

    /// Something happened in the run.
    Test(Box<TestEvent<'a>>),
}

/// An event of a run, with its time.
#[derive(Clone, Debug)]
pub struct TestEvent<'a> {
    /// The time of the event.
    pub timestamp: Moment,

    /// The time since the start of the run.
    pub elapsed: Duration,

    /// What happened.
    pub kind: TestEventKind<'a>,
}
