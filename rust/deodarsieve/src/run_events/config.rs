// Made by tools/erase from crates/run_events/src/config.rt. Do not edit.
//! The settings that decide how results count and what a reporter shows, and other values in events.

mod carried;

pub use crate::moment::Moment;
pub use crate::run_events::config::carried::{
    JunitFlakyFailStatus, MismatchReason, OwnedTestInstanceId, ReportSkipPolicy, ScriptId,
    StressCondition, TestGroup, TestInstanceId, TestList,
};
pub use crate::run_events_results::config::{
    FlakyResult, LeakTimeoutResult, SlowTimeoutResult, TestOutputDisplay,
};
