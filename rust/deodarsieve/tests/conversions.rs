//! Conversions from the values of a runner to the descriptions that reporters get.

use crate::common::caused;
use bytes::Bytes;
use deodarsieve::{
    AbortDescription, AbortStatus, ChildError, ChildErrorDescription, ChildExecutionOutput,
    ChildExecutionOutputDescription, ChildFdError, ChildOutput, ChildOutputDescription,
    ChildSingleOutput, ChildSplitOutput, ChildStartError, ChildStartErrorDescription, ErrorList,
    ExecutionResult, ExecutionResultDescription, FailureDescription, FailureStatus,
    LeakTimeoutResult, SerializableError, SlowTimeoutResult,
};

/// A failure by this signal.
fn killed_by(signal: i32) -> ExecutionResult {
    ExecutionResult::Fail {
        failure_status: FailureStatus::Abort(AbortStatus::UnixSignal(signal)),
        leaked: true,
    }
}

/// The description of a failure by this signal.
fn described(signal: i32, name: Option<&str>) -> ExecutionResultDescription {
    ExecutionResultDescription::Fail {
        failure: FailureDescription::Abort {
            abort: AbortDescription::UnixSignal {
                signal,
                name: name.map(String::from),
            },
        },
        leaked: true,
    }
}

/// Output of both streams.
fn split() -> ChildOutput {
    ChildOutput::Split(ChildSplitOutput {
        stdout: Some(ChildSingleOutput::from(Bytes::from_static(b"out"))),
        stderr: None,
    })
}

#[test]
fn statuses_are_described_with_the_name_of_the_signal() {
    let abort = AbortStatus::UnixSignal(15);
    assert_eq!(
        AbortDescription::from(abort).to_string(),
        "aborted with signal 15 (SIGTERM)"
    );
    let failures = [FailureStatus::ExitCode(3), FailureStatus::Abort(abort)];
    let texts = failures.map(|failure| FailureDescription::from(failure).to_string());
    assert_eq!(
        texts,
        ["exited with code 3", "aborted with signal 15 (SIGTERM)"]
    );
    assert_eq!(
        ExecutionResultDescription::from(killed_by(9)),
        described(9, Some("KILL"))
    );
}

#[test]
fn only_signals_that_all_systems_share_have_a_name() {
    let names = (0..=64).filter_map(|signal| match AbortStatus::UnixSignal(signal).into() {
        AbortDescription::UnixSignal {
            signal,
            name: Some(name),
        } => Some((signal, name)),
        _ => None,
    });
    let wanted = [
        (1, "HUP"),
        (2, "INT"),
        (3, "QUIT"),
        (4, "ILL"),
        (5, "TRAP"),
        (6, "ABRT"),
        (8, "FPE"),
        (9, "KILL"),
        (11, "SEGV"),
        (13, "PIPE"),
        (14, "ALRM"),
        (15, "TERM"),
    ];
    assert_eq!(
        names.collect::<Vec<_>>(),
        wanted.map(|(signal, name)| (signal, String::from(name)))
    );
}

#[test]
fn results_are_described_case_by_case() {
    let leak = LeakTimeoutResult::Fail;
    let timeout = SlowTimeoutResult::Pass;
    let cases = [
        (ExecutionResult::Pass, ExecutionResultDescription::Pass),
        (
            ExecutionResult::Leak { result: leak },
            ExecutionResultDescription::Leak { result: leak },
        ),
        (
            ExecutionResult::ExecFail,
            ExecutionResultDescription::ExecFail,
        ),
        (
            ExecutionResult::Timeout { result: timeout },
            ExecutionResultDescription::Timeout { result: timeout },
        ),
    ];
    for (result, wanted) in cases {
        assert_eq!(ExecutionResultDescription::from(result), wanted);
    }
}

#[test]
fn output_is_described_with_the_name_of_the_signal_or_with_another() {
    let left = ChildExecutionOutput::Output {
        result: Some(killed_by(6)),
        output: split(),
        errors: ErrorList::new(
            "reading",
            vec![ChildError::Fd(ChildFdError::ReadStderr(caused()))],
        ),
    };
    let wanted = |name| ChildExecutionOutputDescription::Output {
        result: Some(described(6, name)),
        output: ChildOutputDescription::from(split()),
        errors: ErrorList::new(
            "reading",
            vec![ChildErrorDescription::ReadStderr { source: caused() }],
        ),
    };
    let other = Some(String::from("IOT"));
    let with_other = ChildExecutionOutputDescription::from_output(left.clone(), other);
    assert_eq!(with_other, wanted(Some("IOT")));
    let without = ChildExecutionOutputDescription::from_output(left.clone(), None);
    assert_eq!(without, wanted(None));
    assert_eq!(
        ChildExecutionOutputDescription::from(left),
        wanted(Some("ABRT"))
    );
}

#[test]
fn a_start_error_is_described() {
    let left = ChildExecutionOutput::StartError(ChildStartError::Spawn(caused()));
    let error = ChildStartErrorDescription::Spawn { source: caused() };
    let wanted = ChildExecutionOutputDescription::StartError(error);
    assert_eq!(ChildExecutionOutputDescription::from(left), wanted);
}

#[test]
fn an_error_is_copied_with_its_sources() {
    let error = ChildStartErrorDescription::TempPath { source: caused() };
    let copy = SerializableError::new(&error);
    let causes: Vec<_> = copy.sources().map(SerializableError::message).collect();
    assert_eq!(
        copy.message(),
        "error creating temporary path for setup script"
    );
    assert_eq!(causes, ["outer", "middle", "inner"]);
}

#[cfg(feature = "serde_json")]
#[test]
fn an_error_is_read_from_what_it_was_written_as() {
    let value = caused().to_value();
    let wanted = serde_json::json!({"message": "outer", "causes": ["middle", "inner"]});
    assert_eq!(value, wanted);
    assert_eq!(SerializableError::from_value(&value), Ok(caused()));
}

#[cfg(all(feature = "std", unix))]
mod exit_status {
    use std::os::unix::process::ExitStatusExt;
    use std::process::{Command, ExitStatus};

    use deodarsieve::{AbortDescription, AbortStatus, FailureStatus, SIGTERM};

    /// Returns the exit status of a shell that runs this script.
    fn ended(script: &str) -> ExitStatus {
        Command::new("sh")
            .args(["-c", script])
            .status()
            .expect("a shell is started")
    }

    #[test]
    fn an_exit_code_is_no_abort() {
        let status = ended("exit 3");
        assert_eq!(AbortStatus::extract(status), None);
        assert_eq!(FailureStatus::extract(status), FailureStatus::ExitCode(3));
    }

    /// The system's own list of signals, as `kill -l` prints it.
    #[test]
    fn the_names_are_those_of_the_system() {
        for signal in 1..=64 {
            let described = AbortDescription::from(AbortStatus::UnixSignal(signal));
            let AbortDescription::UnixSignal {
                name: Some(name), ..
            } = described
            else {
                continue;
            };
            let printed = Command::new("sh")
                .args(["-c", &format!("kill -l {signal}")])
                .output()
                .expect("a shell is started");
            assert_eq!(String::from_utf8_lossy(&printed.stdout).trim_end(), name);
        }
    }

    #[test]
    fn a_signal_is_an_abort() {
        let status = ended("kill -TERM $$");
        let abort = AbortStatus::UnixSignal(SIGTERM);
        assert_eq!(AbortStatus::extract(status), Some(abort));
        assert_eq!(FailureStatus::extract(status), FailureStatus::Abort(abort));
    }

    #[test]
    #[should_panic(expected = "the process was stopped or continued, and has not ended")]
    fn a_stopped_process_has_not_failed() {
        // As `waitpid` reports a process that was stopped by signal 19.
        let stopped = ExitStatus::from_raw(0x137f);
        let _ = FailureStatus::extract(stopped);
    }
}

#[test]
fn errors_of_streams_are_errors_of_child_processes() {
    let error = ChildFdError::ReadStderr(caused());
    assert_eq!(ChildError::from(error.clone()), ChildError::Fd(error));
}
