// Made by tools/erase from crates/run_events/src/events/slots.rt. Do not edit.
//! The slots of running tests.

use crate::run_events::config::TestGroup;

/// The slots of a running test, and its group. A test gets them before its first attempt, and keeps
/// them for all its attempts.
#[derive(Clone, Debug, PartialEq, Eq)]
#[cfg_attr(
    feature = "serde",
    derive(serde::Serialize, serde::Deserialize),
    serde(rename_all = "kebab-case")
)]
pub struct TestSlotAssignment {
    /// Its slot among all running tests: the least that was free, counted from 0.
    pub global_slot: u64,

    /// Its slot among the running tests of its group, if that is not the global group.
    pub group_slot: Option<u64>,

    /// Its group.
    pub test_group: TestGroup,
}
