//! An attempt from what a runner has of it.

use crate::moment::Moment;
use crate::output_slice::TestOutputErrorSlice;
use crate::run_events::unit_error::UnitErrorDescription;
use crate::run_events_attempts::attempts::{ExecuteStatus, OutputErrorSlice, RetryData};
use crate::run_events_attempts::child::{
    ChildExecutionOutputDescription, ChildOutputDescription, ChildSingleOutput, LiveSpec,
};
use crate::run_events_results::results::{ExecutionResultDescription, UnitKind};
use alloc::string::ToString;
use bytes::Bytes;
use core::time::Duration;

impl ExecuteStatus<LiveSpec> {
    /// Returns the only attempt of a test, from its result, the time when it began, how long it
    /// took, and what it wrote to standard output and to standard error.
    ///
    /// The attempt was not slow, and the runner did not wait before it. Change the fields
    /// `is_slow`, `retry_data` and `delay_before_start` if this is wrong.
    ///
    /// If the test failed and its output has a part that explains the failure, the attempt has this
    /// part. If there is such a part or an abort, the attempt has a summary of these errors.
    ///
    /// A test whose result is `ExecFail` has its output here. In nextest, its output is the error
    /// that kept it from starting: put this into the field `output`.
    ///
    /// ```
    /// use deodarsieve::{ExecuteStatus, ExecutionResult, ExecutionStatuses, FailureStatus};
    /// use deodarsieve::{FlakyResult, Moment, RunStats};
    /// use std::time::Duration;
    ///
    /// let failed = ExecutionResult::Fail {
    ///     failure_status: FailureStatus::ExitCode(101),
    ///     leaked: false,
    /// };
    /// let start = Moment::UNIX_EPOCH;
    /// let stderr = "Error: no such file\n";
    /// let attempt =
    ///     ExecuteStatus::from_captured(failed, start, Duration::from_millis(20), "", stderr);
    /// let slice = attempt.output_error_slice.as_ref().expect("the output has an error");
    /// assert_eq!(slice.slice, "Error: no such file");
    ///
    /// let mut stats = RunStats::default();
    /// stats.on_test_finished(&ExecutionStatuses::new(vec![attempt], FlakyResult::Pass));
    /// assert_eq!(stats.failed_count(), 1);
    /// ```
    #[must_use]
    pub fn from_captured(
        result: impl Into<ExecutionResultDescription>,
        start_time: impl Into<Moment>,
        time_taken: Duration,
        stdout: impl Into<Bytes>,
        stderr: impl Into<Bytes>,
    ) -> Self {
        let result = result.into();
        let output = ChildExecutionOutputDescription::Output {
            result: Some(result.clone()),
            output: ChildOutputDescription::Split {
                stdout: Some(ChildSingleOutput::from(stdout.into())),
                stderr: Some(ChildSingleOutput::from(stderr.into())),
            },
            errors: None,
        };
        let errors = UnitErrorDescription::new(UnitKind::Test, &output);
        let error_summary = errors.all_error_list().map(|list| list.summary());
        let output_error_slice = errors.output_slice().map(OutputErrorSlice::from);
        ExecuteStatus {
            retry_data: RetryData {
                attempt: 1,
                total_attempts: 1,
            },
            output,
            is_slow: false,
            result,
            start_time: start_time.into(),
            time_taken,
            delay_before_start: Duration::ZERO,
            error_summary,
            output_error_slice,
        }
    }
}

/// The text of the part, and its offset in the stream in which it was found.
impl From<TestOutputErrorSlice<'_>> for OutputErrorSlice {
    fn from(slice: TestOutputErrorSlice<'_>) -> Self {
        OutputErrorSlice {
            slice: slice.to_string(),
            start: slice
                .combined_subslice()
                .expect("each kind has a part")
                .start,
        }
    }
}
