// Made by tools/erase from crates/run_events/src/events/not_seen.rt. Do not edit.
//! The tests that a rerun did not find.

use crate::run_events::config::OwnedTestInstanceId;
use alloc::vec::Vec;

/// The tests that an earlier run left for this one, and that have no event in this one. They may have
/// been removed or renamed.
#[derive(Clone, Debug, PartialEq, Eq)]
pub struct TestsNotSeen {
    /// Some of these tests, as many as a reporter should show.
    pub not_seen: Vec<OwnedTestInstanceId>,

    /// The number of all these tests.
    pub total_not_seen: usize,
}
