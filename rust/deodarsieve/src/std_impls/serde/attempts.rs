//! The attempts of a test as they are read.

use crate::run_events_attempts::attempts::{ExecuteStatus, ExecutionStatuses};
use crate::run_events_attempts::child::OutputSpec;
use crate::run_events_results::config::FlakyResult;
use ::serde::de::Error;
use ::serde::{Deserialize, Deserializer};
use alloc::vec::Vec;

/// A test as it is read. Older records have no setting.
#[derive(Deserialize)]
#[serde(
    rename_all = "kebab-case",
    bound(deserialize = "S::ChildOutputDesc: Deserialize<'de>")
)]
struct Read<S: OutputSpec> {
    statuses: Vec<ExecuteStatus<S>>,
    #[serde(default)]
    flaky_result: FlakyResult,
}

/// A test without attempts is an error.
impl<'de, S: OutputSpec> Deserialize<'de> for ExecutionStatuses<S>
where
    S::ChildOutputDesc: Deserialize<'de>,
{
    fn deserialize<D: Deserializer<'de>>(deserializer: D) -> Result<Self, D::Error> {
        let read = Read::deserialize(deserializer)?;
        ExecutionStatuses::try_from_parts(read.statuses, read.flaky_result)
            .map_err(D::Error::custom)
    }
}
