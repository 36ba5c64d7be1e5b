// Made by tools/erase from crates/run_events/src/config/carried.rt. Do not edit.
//! Values of other parts of a runner. Nothing in this crate reads them.

use crate::run_events::progress::StressCount;
use alloc::string::String;
use core::time::Duration;

/// The id of a test, borrowed from the list of tests.
#[derive(Clone, Copy, Debug, PartialEq, Eq, PartialOrd, Ord, Hash)]
pub struct TestInstanceId<'a> {
    /// The id of the test binary.
    pub binary_id: &'a str,

    /// The name of the test in the binary.
    pub test_name: &'a str,
}

/// An owned id of a test, which need not be in the list of this run.
#[derive(Clone, Debug, PartialEq, Eq, PartialOrd, Ord, Hash)]
pub struct OwnedTestInstanceId {
    /// The id of the test binary.
    pub binary_id: String,

    /// The name of the test in the binary.
    pub test_name: String,
}

/// The tests that a runner knows of.
#[derive(Clone, Debug, PartialEq, Eq)]
pub struct TestList<'a> {
    /// All tests, including those that will be skipped.
    pub instances: &'a [TestInstanceId<'a>],

    /// The number of tests that are to run.
    pub run_count: usize,
}

/// The name of a setup script in the configuration.
#[derive(Clone, Debug, PartialEq, Eq, PartialOrd, Ord, Hash)]
pub struct ScriptId(
    /// The name.
    pub String,
);

/// The group that a test runs in. A group may limit how many of its tests run at a time.
#[derive(Clone, Debug, PartialEq, Eq, PartialOrd, Ord, Hash)]
pub enum TestGroup {
    /// The group of all tests without another group.
    Global,

    /// A group with this name in the configuration.
    Custom(String),
}

/// How long or how often a run is repeated.
#[derive(Clone, Debug, PartialEq, Eq)]
pub enum StressCondition {
    /// A number of times.
    Count(StressCount),

    /// An amount of time.
    Duration(Duration),
}

/// Why a test will not run.
#[derive(Clone, Copy, Debug, PartialEq, Eq, PartialOrd, Ord, Hash)]
pub struct MismatchReason {
    /// The name of the reason.
    pub name: &'static str,
}

/// Which skipped tests a machine-readable report lists.
#[derive(Clone, Copy, Debug, PartialEq, Eq, PartialOrd, Ord, Hash)]
pub struct ReportSkipPolicy {
    /// The name of the policy.
    pub name: &'static str,
}

/// How a JUnit report shows a flaky test that counts as failed.
#[derive(Clone, Copy, Debug, PartialEq, Eq, PartialOrd, Ord, Hash)]
pub struct JunitFlakyFailStatus {
    /// The name of the form.
    pub name: &'static str,
}
