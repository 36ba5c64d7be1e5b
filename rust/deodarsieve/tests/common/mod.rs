//! Values that several tests start from.

use std::time::Duration;

use deodarsieve::{
    ChildExecutionOutputDescription, ChildOutputDescription, ExecuteStatus,
    ExecutionResultDescription, FailureDescription, FinalStatusLevel, LiveSpec, Moment, OutputSpec,
    RetryData, SerializableError, SetupScriptExecuteStatus, StatusLevel,
};

/// All status levels, the least first.
pub const STATUS_LEVELS: [StatusLevel; 8] = [
    StatusLevel::None,
    StatusLevel::Fail,
    StatusLevel::Retry,
    StatusLevel::Slow,
    StatusLevel::Leak,
    StatusLevel::Pass,
    StatusLevel::Skip,
    StatusLevel::All,
];

/// All final levels, the least first.
pub const FINAL_LEVELS: [FinalStatusLevel; 8] = [
    FinalStatusLevel::None,
    FinalStatusLevel::Fail,
    FinalStatusLevel::Flaky,
    FinalStatusLevel::Slow,
    FinalStatusLevel::Skip,
    FinalStatusLevel::Leak,
    FinalStatusLevel::Pass,
    FinalStatusLevel::All,
];

/// A failure with exit code 101.
pub fn failed() -> ExecutionResultDescription {
    ExecutionResultDescription::Fail {
        failure: FailureDescription::ExitCode { code: 101 },
        leaked: false,
    }
}

/// The only attempt of a test with this result and output.
pub fn attempt_with<S: OutputSpec>(
    result: ExecutionResultDescription,
    output: ChildExecutionOutputDescription<S>,
) -> ExecuteStatus<S> {
    ExecuteStatus {
        retry_data: RetryData {
            attempt: 1,
            total_attempts: 1,
        },
        output,
        is_slow: false,
        result,
        start_time: Moment::UNIX_EPOCH,
        time_taken: Duration::from_millis(20),
        delay_before_start: Duration::ZERO,
        error_summary: None,
        output_error_slice: None,
    }
}

/// The only attempt of a test with this result, whose output was not loaded.
pub fn attempt(result: ExecutionResultDescription) -> ExecuteStatus<LiveSpec> {
    let output = not_loaded(result.clone());
    attempt_with(result, output)
}

/// A setup script with this result, whose output was not loaded.
pub fn script(result: ExecutionResultDescription) -> SetupScriptExecuteStatus<LiveSpec> {
    SetupScriptExecuteStatus {
        output: not_loaded(result.clone()),
        result,
        start_time: Moment::UNIX_EPOCH,
        time_taken: Duration::from_millis(20),
        is_slow: false,
        env_map: None,
        error_summary: None,
    }
}

/// Output that was not loaded, of a process with this result.
pub fn not_loaded(result: ExecutionResultDescription) -> ChildExecutionOutputDescription<LiveSpec> {
    ChildExecutionOutputDescription::Output {
        result: Some(result),
        output: ChildOutputDescription::NotLoaded,
        errors: None,
    }
}

/// An error with the message `outer`, caused by `middle`, caused by `inner`.
pub fn caused() -> SerializableError {
    SerializableError::from_message_and_causes(
        String::from("outer"),
        vec![String::from("middle"), String::from("inner")],
    )
}
