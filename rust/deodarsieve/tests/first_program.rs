//! A first program of a runner: attempts from results, times and captured bytes.

use std::time::Duration;

use crate::common::failed;
use deodarsieve::{
    AbortStatus, ChildExecutionOutputDescription, ChildOutputDescription, ErrorSummary,
    ExecuteStatus, ExecutionResult, ExecutionResultDescription, ExecutionStatuses, FailureStatus,
    FlakyResult, LiveSpec, Moment, OutputErrorSlice, RetryData, RunStats,
};

/// Half a second.
const HALF: Duration = Duration::from_millis(500);

/// An attempt that began at the epoch and took half a second.
fn attempt(
    result: impl Into<ExecutionResultDescription>,
    stdout: &'static str,
    stderr: Vec<u8>,
) -> ExecuteStatus<LiveSpec> {
    ExecuteStatus::from_captured(result, Moment::UNIX_EPOCH, HALF, stdout, stderr)
}

#[test]
fn an_attempt_that_passed_has_its_output_and_no_errors() {
    let passed = attempt(ExecutionResult::Pass, "out", b"Error: expected\n".to_vec());
    assert_eq!(passed.result, ExecutionResultDescription::Pass);
    assert_eq!(
        (passed.start_time, passed.time_taken),
        (Moment::UNIX_EPOCH, HALF)
    );
    assert_eq!(
        (passed.is_slow, passed.delay_before_start),
        (false, Duration::ZERO)
    );
    let only = RetryData {
        attempt: 1,
        total_attempts: 1,
    };
    assert_eq!(passed.retry_data, only);
    assert_eq!(
        (passed.error_summary, passed.output_error_slice),
        (None, None)
    );
    let ChildExecutionOutputDescription::Output {
        result: Some(ExecutionResultDescription::Pass),
        output:
            ChildOutputDescription::Split {
                stdout: Some(stdout),
                stderr: Some(stderr),
            },
        errors: None,
    } = passed.output
    else {
        panic!("both streams are there");
    };
    assert_eq!(stdout.buf(), "out");
    assert_eq!(stderr.buf(), "Error: expected\n");
}

#[test]
fn an_attempt_that_failed_has_the_slice_and_the_summary() {
    let stderr = b"running\nError: no \xff file\n".to_vec();
    let error = attempt(failed(), "", stderr);
    let slice = "Error: no \u{fffd} file";
    assert_eq!(
        error.output_error_slice,
        Some(OutputErrorSlice {
            slice: String::from(slice),
            start: 8,
        })
    );
    let summary = ErrorSummary {
        short_message: String::from(slice),
        description: String::from(slice),
    };
    assert_eq!(error.error_summary, Some(summary));

    let note = "a\nnote: test did not panic as expected\n";
    let quiet = attempt(failed(), note, vec![]);
    assert_eq!(quiet.output_error_slice.map(|slice| slice.start), Some(2));
}

#[test]
fn several_errors_have_a_short_message_in_one_line() {
    let aborted = ExecutionResult::Fail {
        failure_status: FailureStatus::Abort(AbortStatus::UnixSignal(6)),
        leaked: true,
    };
    let stderr = b"thread 'main' panicked at src/a.rs:1:1:\nno\n".to_vec();
    let summary = attempt(aborted, "", stderr)
        .error_summary
        .expect("there are errors");
    assert_eq!(summary.short_message, "2 errors occurred executing test");
    let description = "2 errors occurred executing test:
* process aborted with signal 6 (SIGABRT) (leaked handles)
* thread 'main' panicked at src/a.rs:1:1:
  no
";
    assert_eq!(summary.description, description);
}

#[test]
fn a_flaky_test_is_counted() {
    let mut second = attempt(ExecutionResult::Pass, "", vec![]);
    second.retry_data.attempt = 2;
    second.is_slow = true;
    let attempts = vec![attempt(failed(), "", vec![]), second];
    let mut stats = RunStats::default();
    stats.on_test_finished(&ExecutionStatuses::new(attempts, FlakyResult::Pass));
    assert_eq!((stats.passed, stats.passed_slow, stats.flaky), (1, 1, 1));
}

/// What `std` has of a process is taken as it is.
#[cfg(all(feature = "std", unix))]
#[test]
fn a_process_is_described() {
    use std::process::Command;
    use std::time::SystemTime;

    let start = SystemTime::now();
    let ended = Command::new("sh")
        .args(["-c", "echo out; echo 'Error: no' >&2; kill -TERM $$"])
        .output()
        .expect("a shell is started");
    let result = ExecutionResult::Fail {
        failure_status: FailureStatus::extract(ended.status),
        leaked: false,
    };
    let took = start.elapsed().unwrap_or_default();
    let status = ExecuteStatus::from_captured(result, start, took, ended.stdout, ended.stderr);
    assert!(status.result.is_termination_failure());
    let slice = status.output_error_slice.expect("the output has an error");
    assert_eq!(slice.slice, "Error: no");
    let summary = status.error_summary.expect("there are errors").description;
    assert!(summary.contains("* process aborted with signal 15 (SIGTERM)\n"));
}
