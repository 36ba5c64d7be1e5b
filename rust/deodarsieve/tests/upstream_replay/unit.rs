//! Finished units that cases name.

use crate::fixtures::finished_test;
use crate::upstream_replay::words::{earlier_attempts, named_result, named_setting, named_truth};
use deodarsieve::{ExecutionStatuses, FinishedUnit, LiveSpec, SetupScriptExecuteStatus};

/// A finished unit.
#[expect(clippy::large_enum_variant, reason = "a case has one unit")]
pub enum Unit {
    /// A setup script.
    Script(SetupScriptExecuteStatus<LiveSpec>),

    /// A test.
    Test(ExecutionStatuses<LiveSpec>),
}

impl Unit {
    /// Returns the unit, borrowed.
    pub fn borrowed(&self) -> FinishedUnit<'_> {
        match self {
            Unit::Script(script) => FinishedUnit::Script(script),
            Unit::Test(test) => FinishedUnit::Test(test),
        }
    }
}

/// Returns the test that four words name: the last result, the number of attempts, the setting, and
/// whether the last attempt was slow.
pub fn test_in(words: &[&str]) -> Option<ExecutionStatuses<LiveSpec>> {
    let [result, attempts, setting, slow] = words else {
        return None;
    };
    Some(finished_test(
        earlier_attempts(attempts)?,
        named_result(result)?,
        named_truth(slow)?,
        named_setting(setting)?,
    ))
}
