//! What the types have on Windows alone. `tools/rust-workspace` also runs these tests on other
//! systems, over a copy in which the conditions of Windows are true. The last test, which takes
//! the exit code of a process, runs on Windows alone.
#![cfg(windows)]

use deodarsieve::{
    AbortDescription, AbortStatus, ExecutionResult, ExecutionResultDescription, FailureDescription,
    FailureStatus, UnitTerminateMethod,
};

/// The code of a process that Ctrl-C ended.
const CONTROL_C: i32 = 0xc000_013a_u32 as i32;

#[test]
fn aborts_are_shown_on_one_line() {
    let texts = [
        AbortStatus::WindowsNtStatus(CONTROL_C),
        AbortStatus::JobObject,
    ]
    .map(|abort| format!("{abort:?} {abort:#?}"));
    let code = "WindowsNtStatus(c000013a)";
    assert_eq!(
        texts,
        [
            format!("{code} {code}"),
            String::from("JobObject JobObject")
        ]
    );
}

#[test]
fn aborts_are_described() {
    let abort = AbortStatus::WindowsNtStatus(CONTROL_C);
    assert_eq!(
        AbortDescription::from(abort),
        AbortDescription::WindowsNtStatus {
            code: CONTROL_C,
            message: None
        }
    );
    let message = Some(String::from("Ctrl-C"));
    assert_eq!(
        AbortDescription::from_status(abort, message).to_string(),
        "aborted with code 0xc000013a: Ctrl-C"
    );
    assert_eq!(
        AbortDescription::from(AbortStatus::JobObject),
        AbortDescription::WindowsJobObject
    );
}

#[test]
fn a_job_object_ends_a_test_as_the_runner_does() {
    let failed = ExecutionResult::Fail {
        failure_status: FailureStatus::Abort(AbortStatus::JobObject),
        leaked: false,
    };
    let described = ExecutionResultDescription::from(failed);
    let failure = FailureDescription::Abort {
        abort: AbortDescription::WindowsJobObject,
    };
    assert_eq!(
        described,
        ExecutionResultDescription::Fail {
            failure,
            leaked: false
        }
    );
    assert!(described.is_termination_failure());
}

#[test]
fn a_unit_is_ended_without_a_signal() {
    let methods = [UnitTerminateMethod::JobObject, UnitTerminateMethod::Wait];
    assert_eq!(
        methods.map(|method| format!("{method:?}")),
        ["JobObject", "Wait"]
    );
}

/// Only Windows has exit codes of 32 bits.
#[cfg(all(feature = "std", target_os = "windows"))]
#[test]
fn a_negative_exit_code_is_an_abort() {
    use std::process::Command;

    for (code, wanted) in [
        (3, FailureStatus::ExitCode(3)),
        (
            CONTROL_C,
            FailureStatus::Abort(AbortStatus::WindowsNtStatus(CONTROL_C)),
        ),
    ] {
        let status = Command::new("cmd")
            .args(["/C", "exit", "/B", &code.to_string()])
            .status()
            .expect("a shell is started");
        assert_eq!(FailureStatus::extract(status), wanted);
    }
}
