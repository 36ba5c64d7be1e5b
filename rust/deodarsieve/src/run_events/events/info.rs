// Made by tools/erase from crates/run_events/src/events/info.rt. Do not edit.
//! The responses of units to a request for information.

use crate::run_events::config::{ScriptId, TestInstanceId};
use crate::run_events::events::unit_state::UnitState;
use crate::run_events_attempts::attempts::RetryData;
use crate::run_events_attempts::child::{ChildExecutionOutputDescription, LiveSpec};
use crate::run_events_results::stress::StressIndex;
use alloc::string::String;
use alloc::vec::Vec;

/// The response of a unit to a request for information.
#[derive(Clone, Debug)]
pub enum InfoResponse<'a> {
    /// The response of a setup script.
    SetupScript(SetupScriptInfoResponse),

    /// The response of a test.
    Test(TestInfoResponse<'a>),
}

/// The response of a setup script to a request for information.
#[derive(Clone, Debug)]
pub struct SetupScriptInfoResponse {
    /// The sub-run that it belongs to, if the run is repeated.
    pub stress_index: Option<StressIndex>,

    /// The setup script.
    pub script_id: ScriptId,

    /// The program that it runs.
    pub program: String,

    /// The arguments of that program.
    pub args: Vec<String>,

    /// Its current state.
    pub state: UnitState,

    /// The output that was captured so far.
    pub output: ChildExecutionOutputDescription<LiveSpec>,
}

/// The response of a test to a request for information.
#[derive(Clone, Debug)]
pub struct TestInfoResponse<'a> {
    /// The sub-run that it belongs to, if the run is repeated.
    pub stress_index: Option<StressIndex>,

    /// The test.
    pub test_instance: TestInstanceId<'a>,

    /// The number of the attempt.
    pub retry_data: RetryData,

    /// Its current state.
    pub state: UnitState,

    /// The output that was captured so far. It may be shown only if [`UnitState::has_valid_output`]
    /// returns true.
    pub output: ChildExecutionOutputDescription<LiveSpec>,
}
