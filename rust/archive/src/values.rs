//! The values of the crate as structs of C.

use crate::c_values::values::{written_final, written_stats};
use crate::codes::{FLAKY_RESULTS, STORES, code_of};
use crate::sys;
use deodarsieve::counted::HeadSpan;
use deodarsieve::{
    AbortDescription, ExecutionResultDescription, FailureDescription, FinalRunStats,
    LeakTimeoutResult, OutputOnTestFinished, RunStats, SlowTimeoutResult, StressCount,
    StressProgress, StressRemaining, TestOutputErrorSlice, TestView,
};
use std::time::Duration;

// The kinds of a repeated run: members that a kind does not have are 0.
const STRESS_COUNT: u32 = 0;
const STRESS_INFINITE: u32 = 1;
const STRESS_TIME: u32 = 2;
const STRESS_NOTHING: u32 = 3;

impl From<Option<TestOutputErrorSlice<'_>>> for sys::Slice {
    fn from(found: Option<TestOutputErrorSlice<'_>>) -> Self {
        let (kind, part) = match found {
            None => return Self::default(),
            Some(TestOutputErrorSlice::PanicMessage { stderr_subslice }) => (1, stderr_subslice),
            Some(TestOutputErrorSlice::ErrorStr { stderr_subslice }) => (2, stderr_subslice),
            Some(TestOutputErrorSlice::ShouldPanic { stdout_subslice }) => (3, stdout_subslice),
        };
        Self {
            kind,
            start: part.start,
            length: part.slice.len(),
        }
    }
}

impl sys::Head {
    /// Returns the struct of a head, if there is one, and of the number of reads.
    pub fn new(head: Option<HeadSpan>, reads: u128) -> Self {
        Self {
            is_found: head.is_some(),
            start: head.map_or(0, |head| head.start),
            stop: head.map_or(0, |head| head.stop),
            reads: u64::try_from(reads).unwrap_or(u64::MAX),
        }
    }
}

impl From<&ExecutionResultDescription> for sys::UnitResult {
    fn from(result: &ExecutionResultDescription) -> Self {
        let (kind, number) = match result {
            ExecutionResultDescription::Pass => (0, 0),
            ExecutionResultDescription::Leak { result } => match result {
                LeakTimeoutResult::Pass => (1, 0),
                LeakTimeoutResult::Fail => (2, 0),
            },
            ExecutionResultDescription::Fail { failure, .. } => failure_codes(failure),
            ExecutionResultDescription::ExecFail => (7, 0),
            ExecutionResultDescription::Timeout { result } => match result {
                SlowTimeoutResult::Pass => (8, 0),
                SlowTimeoutResult::Fail => (9, 0),
            },
        };
        Self { kind, number }
    }
}

/// Returns the kind and the number of a failure.
fn failure_codes(failure: &FailureDescription) -> (u32, i32) {
    match failure {
        FailureDescription::ExitCode { code } => (3, *code),
        FailureDescription::Abort { abort } => match abort {
            AbortDescription::UnixSignal { signal, .. } => (4, *signal),
            AbortDescription::WindowsNtStatus { code, .. } => (5, *code),
            AbortDescription::WindowsJobObject => (6, 0),
        },
    }
}

impl From<&TestView<'_>> for sys::TestView {
    fn from(view: &TestView<'_>) -> Self {
        Self {
            result: view.result.into(),
            attempts: view.attempts,
            is_slow: view.is_slow,
            flaky_result: code_of(&FLAKY_RESULTS, view.flaky_result),
        }
    }
}

impl From<&RunStats> for sys::RunStats {
    fn from(stats: &RunStats) -> Self {
        written_stats(*stats)
    }
}

impl From<FinalRunStats> for sys::FinalStats {
    fn from(stats: FinalRunStats) -> Self {
        written_final(stats)
    }
}

impl From<OutputOnTestFinished> for sys::Output {
    fn from(output: OutputOnTestFinished) -> Self {
        Self {
            write_status_line: output.write_status_line,
            show_immediate: output.show_immediate,
            store_final: code_of(&STORES, output.store_final),
        }
    }
}

impl From<Duration> for sys::Duration {
    fn from(duration: Duration) -> Self {
        Self {
            seconds: duration.as_secs(),
            nanoseconds: duration.subsec_nanos(),
        }
    }
}

impl From<StressProgress> for sys::StressProgress {
    fn from(progress: StressProgress) -> Self {
        match progress {
            StressProgress::Count {
                total,
                elapsed,
                completed,
            } => {
                let (kind, total_count) = match total {
                    StressCount::Count { count } => (STRESS_COUNT, count.get()),
                    StressCount::Infinite => (STRESS_INFINITE, 0),
                };
                Self {
                    kind,
                    total_count,
                    completed,
                    total: sys::Duration::default(),
                    elapsed: elapsed.into(),
                }
            }
            StressProgress::Time {
                total,
                elapsed,
                completed,
            } => Self {
                kind: STRESS_TIME,
                total_count: 0,
                completed,
                total: total.into(),
                elapsed: elapsed.into(),
            },
        }
    }
}

impl From<Option<StressRemaining>> for sys::StressRemaining {
    fn from(remaining: Option<StressRemaining>) -> Self {
        match remaining {
            None => Self {
                kind: STRESS_NOTHING,
                ..Self::default()
            },
            Some(StressRemaining::Count(count)) => Self {
                kind: STRESS_COUNT,
                count: count.get(),
                ..Self::default()
            },
            Some(StressRemaining::Infinite) => Self {
                kind: STRESS_INFINITE,
                ..Self::default()
            },
            Some(StressRemaining::Time(time)) => Self {
                kind: STRESS_TIME,
                time: time.get().into(),
                ..Self::default()
            },
        }
    }
}
