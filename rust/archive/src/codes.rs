//! The values of each enumeration, in the order of their codes.

use crate::c_values;
use deodarsieve::{
    AbortDescription, CancelReason, ExecutionResultDescription, FailureDescription,
    FinalStatusLevel, FlakyResult, LeakTimeoutResult, OutputStoreFinal, RunFailureStep, RunOutcome,
    SlowTimeoutResult, StatusLevel, StressFinalRunStats, TestOutputDisplay,
};

pub const FLAKY_RESULTS: [FlakyResult; 2] = [FlakyResult::Pass, FlakyResult::Fail];

pub const REASONS: &[Option<CancelReason>] = &c_values::codes::REASONS;

pub const LEVELS: [StatusLevel; 8] = [
    StatusLevel::None,
    StatusLevel::Fail,
    StatusLevel::Retry,
    StatusLevel::Slow,
    StatusLevel::Leak,
    StatusLevel::Pass,
    StatusLevel::Skip,
    StatusLevel::All,
];

pub const FINAL_LEVELS: [FinalStatusLevel; 8] = [
    FinalStatusLevel::None,
    FinalStatusLevel::Fail,
    FinalStatusLevel::Flaky,
    FinalStatusLevel::Slow,
    FinalStatusLevel::Skip,
    FinalStatusLevel::Leak,
    FinalStatusLevel::Pass,
    FinalStatusLevel::All,
];

pub const DISPLAYS: [TestOutputDisplay; 4] = [
    TestOutputDisplay::Immediate,
    TestOutputDisplay::ImmediateFinal,
    TestOutputDisplay::Final,
    TestOutputDisplay::Never,
];

pub const STORES: [OutputStoreFinal; 3] = [
    OutputStoreFinal::No,
    OutputStoreFinal::Yes {
        display_output: false,
    },
    OutputStoreFinal::Yes {
        display_output: true,
    },
];

pub const OUTCOMES: [RunOutcome; 6] = [
    RunOutcome::NoTestsRun,
    RunOutcome::Success,
    RunOutcome::Cancelled {
        step: RunFailureStep::Test,
    },
    RunOutcome::Cancelled {
        step: RunFailureStep::SetupScript,
    },
    RunOutcome::Failed {
        step: RunFailureStep::Test,
    },
    RunOutcome::Failed {
        step: RunFailureStep::SetupScript,
    },
];

pub const STRESS_FINALS: [StressFinalRunStats; 4] = [
    StressFinalRunStats::NoTestsRun,
    StressFinalRunStats::Success,
    StressFinalRunStats::Cancelled,
    StressFinalRunStats::Failed,
];

/// Returns the code of a value: its index in its table, which must have it.
pub fn code_of<T: PartialEq>(table: &[T], value: T) -> u32 {
    let index = table.iter().position(|entry| *entry == value);
    let code = index.and_then(|index| u32::try_from(index).ok());
    code.expect("the table has all values of its type")
}

/// Returns a result of each kind, with `number` in those that have one. A failure comes twice: with
/// a leak and without.
pub fn results(number: i32) -> Vec<ExecutionResultDescription> {
    let fail = |failure, leaked| ExecutionResultDescription::Fail { failure, leaked };
    let abort = |abort| FailureDescription::Abort { abort };
    let failures = [
        FailureDescription::ExitCode { code: number },
        abort(AbortDescription::UnixSignal {
            signal: number,
            name: None,
        }),
        abort(AbortDescription::WindowsNtStatus {
            code: number,
            message: None,
        }),
        abort(AbortDescription::WindowsJobObject),
    ];
    let leak = |result| ExecutionResultDescription::Leak { result };
    let timeout = |result| ExecutionResultDescription::Timeout { result };
    let mut results = vec![
        ExecutionResultDescription::Pass,
        leak(LeakTimeoutResult::Pass),
        leak(LeakTimeoutResult::Fail),
        ExecutionResultDescription::ExecFail,
        timeout(SlowTimeoutResult::Pass),
        timeout(SlowTimeoutResult::Fail),
    ];
    for failure in failures {
        results.push(fail(failure.clone(), false));
        results.push(fail(failure, true));
    }
    results
}
