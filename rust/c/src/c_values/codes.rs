// Made by tools/erase from crates/c_values/src/codes.rt. Do not edit.
//! The codes of enumerations, converted to values and back.

use crate::c_values::layout::FfiResult;
use deodarsieve::{AbortDescription, CancelReason, ExecutionResultDescription, FailureDescription};
use deodarsieve::{FinalStatusLevel, OutputStoreFinal, StatusLevel};
use deodarsieve::{FlakyResult, LeakTimeoutResult, SlowTimeoutResult, TestOutputDisplay};
use deodarsieve::{RunFailureStep, RunOutcome, StressFinalRunStats};

const FLAKY_RESULTS: [FlakyResult; 2] = [FlakyResult::Pass, FlakyResult::Fail];

/// No reason to cancel a run, and the reasons. A code is a position in this table, so a new reason
/// comes last.
pub const REASONS: [Option<CancelReason>; 10] = [
    None,
    Some(CancelReason::SetupScriptFailure),
    Some(CancelReason::TestFailure),
    Some(CancelReason::ReportError),
    Some(CancelReason::OutputLimit),
    Some(CancelReason::TestFailureImmediate),
    Some(CancelReason::GlobalTimeout),
    Some(CancelReason::Signal),
    Some(CancelReason::Interrupt),
    Some(CancelReason::SecondSignal),
];

const LEVELS: [StatusLevel; 8] = [
    StatusLevel::None,
    StatusLevel::Fail,
    StatusLevel::Retry,
    StatusLevel::Slow,
    StatusLevel::Leak,
    StatusLevel::Pass,
    StatusLevel::Skip,
    StatusLevel::All,
];

const FINAL_LEVELS: [FinalStatusLevel; 8] = [
    FinalStatusLevel::None,
    FinalStatusLevel::Fail,
    FinalStatusLevel::Flaky,
    FinalStatusLevel::Slow,
    FinalStatusLevel::Skip,
    FinalStatusLevel::Leak,
    FinalStatusLevel::Pass,
    FinalStatusLevel::All,
];

const DISPLAYS: [TestOutputDisplay; 4] = [
    TestOutputDisplay::Immediate,
    TestOutputDisplay::ImmediateFinal,
    TestOutputDisplay::Final,
    TestOutputDisplay::Never,
];

const OUTCOMES: [RunOutcome; 6] = [
    RunOutcome::NoTestsRun,
    RunOutcome::Success,
    RunOutcome::Cancelled {
        step: RunFailureStep::Test,
    },
    RunOutcome::Cancelled {
        step: RunFailureStep::SetupScript,
    },
    RunOutcome::Failed {
        step: RunFailureStep::Test,
    },
    RunOutcome::Failed {
        step: RunFailureStep::SetupScript,
    },
];

/// Returns the value of a code in a table, or `None` if the code is not in it.
fn at<T: Copy>(table: &[T], code: u32) -> Option<T> {
    table.get(code as usize).copied()
}

/// Returns how a flaky test counts, or `None` if the code is not in the table.
pub fn flaky_result(code: u32) -> Option<FlakyResult> {
    at(&FLAKY_RESULTS, code)
}

/// Returns why a run is cancelled, if it is, or `None` if the code is not in the table.
pub fn reason(code: u32) -> Option<Option<CancelReason>> {
    at(&REASONS, code)
}

/// Returns the status level of a code, or `None` if the code is not in the table.
pub fn level(code: u32) -> Option<StatusLevel> {
    at(&LEVELS, code)
}

/// Returns the final level of a code, or `None` if the code is not in the table.
pub fn final_level(code: u32) -> Option<FinalStatusLevel> {
    at(&FINAL_LEVELS, code)
}

/// Returns when output is displayed, or `None` if the code is not in the table.
pub fn display(code: u32) -> Option<TestOutputDisplay> {
    at(&DISPLAYS, code)
}

/// Returns the outcome of a code, or `None` if the code is not in the table.
pub fn outcome(code: u32) -> Option<RunOutcome> {
    at(&OUTCOMES, code)
}

/// Returns the result of an attempt from its code and its number, or `None` if the code is not in
/// the table.
pub fn described(ended: FfiResult) -> Option<ExecutionResultDescription> {
    match ended.kind {
        0 => Some(ExecutionResultDescription::Pass),
        1 => Some(ExecutionResultDescription::Leak {
            result: LeakTimeoutResult::Pass,
        }),
        2 => Some(ExecutionResultDescription::Leak {
            result: LeakTimeoutResult::Fail,
        }),
        3 => Some(failed(FailureDescription::ExitCode { code: ended.number })),
        4 => Some(failed(FailureDescription::Abort {
            abort: AbortDescription::UnixSignal {
                signal: ended.number,
                name: None,
            },
        })),
        5 => Some(failed(FailureDescription::Abort {
            abort: AbortDescription::WindowsNtStatus {
                code: ended.number,
                message: None,
            },
        })),
        6 => Some(failed(FailureDescription::Abort {
            abort: AbortDescription::WindowsJobObject,
        })),
        7 => Some(ExecutionResultDescription::ExecFail),
        8 => Some(ExecutionResultDescription::Timeout {
            result: SlowTimeoutResult::Pass,
        }),
        9 => Some(ExecutionResultDescription::Timeout {
            result: SlowTimeoutResult::Fail,
        }),
        _ => None,
    }
}

/// Returns a failure without a leak.
fn failed(failure: FailureDescription) -> ExecutionResultDescription {
    ExecutionResultDescription::Fail {
        failure,
        leaked: false,
    }
}

/// Returns the code of a reason to cancel a run, or the code 0 for `None`.
pub fn reason_code(reason: Option<CancelReason>) -> u32 {
    match reason {
        None => 0,
        Some(CancelReason::SetupScriptFailure) => 1,
        Some(CancelReason::TestFailure) => 2,
        Some(CancelReason::ReportError) => 3,
        Some(CancelReason::OutputLimit) => 4,
        Some(CancelReason::TestFailureImmediate) => 5,
        Some(CancelReason::GlobalTimeout) => 6,
        Some(CancelReason::Signal) => 7,
        Some(CancelReason::Interrupt) => 8,
        Some(CancelReason::SecondSignal) => 9,
    }
}

/// Returns the code of a status level.
pub fn level_code(level: StatusLevel) -> u32 {
    match level {
        StatusLevel::None => 0,
        StatusLevel::Fail => 1,
        StatusLevel::Retry => 2,
        StatusLevel::Slow => 3,
        StatusLevel::Leak => 4,
        StatusLevel::Pass => 5,
        StatusLevel::Skip => 6,
        StatusLevel::All => 7,
    }
}

/// Returns the code of a final level.
pub fn final_level_code(level: FinalStatusLevel) -> u32 {
    match level {
        FinalStatusLevel::None => 0,
        FinalStatusLevel::Fail => 1,
        FinalStatusLevel::Flaky => 2,
        FinalStatusLevel::Slow => 3,
        FinalStatusLevel::Skip => 4,
        FinalStatusLevel::Leak => 5,
        FinalStatusLevel::Pass => 6,
        FinalStatusLevel::All => 7,
    }
}

/// Returns the code of what is stored for the end of a run.
pub fn store_code(stored: OutputStoreFinal) -> u32 {
    match stored {
        OutputStoreFinal::No => 0,
        OutputStoreFinal::Yes {
            display_output: false,
        } => 1,
        OutputStoreFinal::Yes {
            display_output: true,
        } => 2,
    }
}

/// Returns the code of an outcome.
pub fn outcome_code(outcome: RunOutcome) -> u32 {
    match outcome {
        RunOutcome::NoTestsRun => 0,
        RunOutcome::Success => 1,
        RunOutcome::Cancelled {
            step: RunFailureStep::Test,
        } => 2,
        RunOutcome::Cancelled {
            step: RunFailureStep::SetupScript,
        } => 3,
        RunOutcome::Failed {
            step: RunFailureStep::Test,
        } => 4,
        RunOutcome::Failed {
            step: RunFailureStep::SetupScript,
        } => 5,
    }
}

/// Returns the code of the summary of a repeated run.
pub fn stress_final_code(stats: StressFinalRunStats) -> u32 {
    match stats {
        StressFinalRunStats::NoTestsRun => 0,
        StressFinalRunStats::Success => 1,
        StressFinalRunStats::Cancelled => 2,
        StressFinalRunStats::Failed => 3,
    }
}
