//! The types as the rest of nextest uses them: in a recorder, in a configuration, in reports and in a
//! runner. These programs have types of their own that hold types of the crate.
#![cfg(all(feature = "serde", feature = "std"))]

use std::error::Error;
use std::fmt;
use std::io;
use std::sync::Arc;
use std::time::Duration;

use chrono::{DateTime, FixedOffset, Utc};
use deodarsieve::config::elements::FlakyResult;
use deodarsieve::errors::{ChildError, ChildFdError, ChildStartError, ErrorList};
use deodarsieve::output_spec::{LiveSpec, OutputSpec, SerializableOutputSpec};
use deodarsieve::reporter::events::{
    AbortStatus, CancelReason, ChildErrorDescription, ChildExecutionOutputDescription,
    ChildStartErrorDescription, ExecuteStatus, ExecutionResult, ExecutionStatuses, FailureStatus,
    RunStats, StressIndex, UnitKind,
};
use deodarsieve::reporter::{FinalStatusLevel, StatusLevel, UnitErrorDescription};
use serde::{Deserialize, Serialize};

/// A recorder: events of runs whose output is in an archive.
mod recorder {
    use super::*;

    /// Output by the name of a file in the archive.
    #[derive(Clone, Copy, Debug, PartialEq, Eq)]
    pub struct RecordingSpec;

    /// The names of the files of both streams.
    #[derive(Clone, Debug, PartialEq, Eq, Serialize, Deserialize)]
    #[serde(tag = "type", rename_all = "kebab-case")]
    pub enum StoredOutput {
        Split {
            stdout: Option<String>,
            stderr: Option<String>,
        },
        NotStored,
    }

    impl OutputSpec for RecordingSpec {
        type ChildOutputDesc = StoredOutput;
    }

    /// An event in the archive, with the bounds that nextest's recorder writes.
    #[derive(Serialize, Deserialize)]
    #[serde(
        tag = "kind",
        rename_all = "kebab-case",
        bound(
            serialize = "S: SerializableOutputSpec",
            deserialize = "S: SerializableOutputSpec"
        )
    )]
    pub enum RecordedEvent<S: OutputSpec> {
        TestFinished {
            stress_index: Option<StressIndex>,
            run_statuses: ExecutionStatuses<S>,
            current_stats: Box<RunStats>,
        },
        Cancelled {
            reason: CancelReason,
        },
    }

    /// Puts the files of captured output in its place.
    pub fn stored(attempt: ExecuteStatus<LiveSpec>, file: &str) -> ExecuteStatus<RecordingSpec> {
        let output = match attempt.output {
            ChildExecutionOutputDescription::Output { result, errors, .. } => {
                ChildExecutionOutputDescription::Output {
                    result,
                    output: StoredOutput::Split {
                        stdout: None,
                        stderr: Some(String::from(file)),
                    },
                    errors,
                }
            }
            ChildExecutionOutputDescription::StartError(error) => {
                ChildExecutionOutputDescription::StartError(error)
            }
        };
        ExecuteStatus {
            retry_data: attempt.retry_data,
            output,
            result: attempt.result,
            start_time: attempt.start_time,
            time_taken: attempt.time_taken,
            is_slow: attempt.is_slow,
            delay_before_start: attempt.delay_before_start,
            error_summary: attempt.error_summary,
            output_error_slice: attempt.output_error_slice,
        }
    }
}

/// A failed attempt, which began at a time of chrono's.
fn attempt() -> ExecuteStatus<LiveSpec> {
    let start: DateTime<FixedOffset> = "2026-01-01T01:00:00.500+01:00".parse().expect("a date");
    let result = ExecutionResult::Fail {
        failure_status: FailureStatus::Abort(AbortStatus::UnixSignal(11)),
        leaked: false,
    };
    let took = Duration::from_millis(20);
    ExecuteStatus::from_captured(result, start, took, "", "Error: no\n")
}

#[test]
fn a_recorder_reads_what_it_wrote() {
    use recorder::{RecordedEvent, RecordingSpec, stored};

    let statuses = ExecutionStatuses::new(vec![stored(attempt(), "1.err")], FlakyResult::Pass);
    let event = RecordedEvent::<RecordingSpec>::TestFinished {
        stress_index: None,
        run_statuses: statuses.clone(),
        current_stats: Box::default(),
    };
    let json = serde_json::to_string(&event).expect("it is written");
    let part = concat!(
        r#""output":{"type":"output","result":{"status":"fail","failure":{"kind":"abort","#,
        r#""abort":{"kind":"unix-signal","signal":11,"name":"SEGV"}},"leaked":false},"#,
        r#""output":{"type":"split","stdout":null,"stderr":"1.err"},"errors":null}"#
    );
    assert!(json.contains(part), "{json}");
    let read: RecordedEvent<RecordingSpec> = serde_json::from_str(&json).expect("it is read");
    let RecordedEvent::TestFinished {
        run_statuses,
        current_stats,
        ..
    } = read
    else {
        panic!("another event is read");
    };
    assert_eq!(
        (run_statuses, *current_stats),
        (statuses, RunStats::default())
    );

    let cancelled = r#"{"kind":"cancelled","reason":"second-signal"}"#;
    let read: RecordedEvent<RecordingSpec> = serde_json::from_str(cancelled).expect("it is read");
    assert!(matches!(
        read,
        RecordedEvent::Cancelled {
            reason: CancelReason::SecondSignal
        }
    ));
}

#[test]
fn a_configuration_has_levels() {
    #[derive(Deserialize)]
    #[serde(rename_all = "kebab-case")]
    struct Profile {
        status_level: StatusLevel,
        final_status_level: FinalStatusLevel,
        flaky_result: Option<FlakyResult>,
    }

    let json = r#"{"status-level":"pass","final-status-level":"retry","flaky-result":"fail"}"#;
    let profile: Profile = serde_json::from_str(json).expect("it is read");
    assert!(profile.status_level >= StatusLevel::Retry);
    assert_eq!(profile.final_status_level, FinalStatusLevel::Flaky);
    assert_eq!(profile.flaky_result, Some(FlakyResult::Fail));
}

/// Shows an error of any type with its sources.
struct Chain<E>(E);

impl<E: Error> fmt::Display for Chain<E> {
    fn fmt(&self, f: &mut fmt::Formatter<'_>) -> fmt::Result {
        write!(f, "{}", self.0)?;
        let mut source = self.0.source();
        while let Some(cause) = source {
            write!(f, " <- {cause}")?;
            source = cause.source();
        }
        Ok(())
    }
}

#[test]
fn a_displayer_shows_errors_and_dates() {
    let attempt = attempt();
    let description = UnitErrorDescription::new(UnitKind::Test, &attempt.output);
    let all = description.all_error_list().expect("there are errors");
    let text = "2 errors occurred executing test:
* process aborted with signal 11 (SIGSEGV)
* Error: no
";
    assert_eq!(Chain(&all).to_string(), text);
    for error in &all {
        assert!(!Chain(*error).to_string().is_empty());
    }

    let date = DateTime::<FixedOffset>::try_from(attempt.start_time).expect("chrono has it");
    assert_eq!(date.to_rfc3339(), "2026-01-01T01:00:00.500+01:00");
    let utc = DateTime::<Utc>::try_from(attempt.start_time).expect("chrono has it");
    assert_eq!(utc.to_rfc3339(), "2026-01-01T00:00:00.500+00:00");
    assert_eq!(attempt.start_time.timestamp_millis(), 1_767_225_600_500);
}

#[test]
fn a_runner_passes_on_errors_of_the_system() {
    let error = || Arc::new(io::Error::new(io::ErrorKind::NotFound, "no such program"));
    let start = ChildStartErrorDescription::from(ChildStartError::Spawn(error().into()));
    assert_eq!(
        Chain(start).to_string(),
        "error spawning child process <- no such program"
    );
    let wait = ChildError::Fd(ChildFdError::Wait(error().into()));
    let list = ErrorList::new(UnitKind::WAITING_ON_TEST_MESSAGE, vec![wait])
        .expect("there is an error")
        .map(ChildErrorDescription::from);
    assert_eq!(
        Chain(list).to_string(),
        "error waiting for child process to exit <- no such program"
    );
}
