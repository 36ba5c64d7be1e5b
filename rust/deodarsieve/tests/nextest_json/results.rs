//! The results of attempts.

use crate::common::failed;
use crate::nextest_json::{is_json, read};
use deodarsieve::*;

#[test]
fn aborts_have_the_tag_kind() {
    let signal = |signal, name: Option<&str>| AbortDescription::UnixSignal {
        signal,
        name: name.map(String::from),
    };
    let status = |code, message: Option<&str>| AbortDescription::WindowsNtStatus {
        code,
        message: message.map(String::from),
    };
    is_json(
        &signal(15, Some("TERM")),
        r#"{"kind":"unix-signal","signal":15,"name":"TERM"}"#,
    );
    is_json(
        &signal(42, None),
        r#"{"kind":"unix-signal","signal":42,"name":null}"#,
    );
    is_json(
        &status(-1_073_741_510, Some("CTRL+C")),
        r#"{"kind":"windows-nt-status","code":-1073741510,"message":"CTRL+C"}"#,
    );
    is_json(
        &status(-1_073_741_819, None),
        r#"{"kind":"windows-nt-status","code":-1073741819,"message":null}"#,
    );
    is_json(
        &AbortDescription::WindowsJobObject,
        r#"{"kind":"windows-job-object"}"#,
    );
    let without_name = read::<AbortDescription>(r#"{"kind":"unix-signal","signal":9}"#);
    assert_eq!(without_name, signal(9, None));
}

#[test]
fn results_have_the_tag_status() {
    type Result = ExecutionResultDescription;
    is_json(&Result::Pass, r#"{"status":"pass"}"#);
    is_json(&Result::ExecFail, r#"{"status":"exec-fail"}"#);
    for (result, word) in [
        (LeakTimeoutResult::Pass, "pass"),
        (LeakTimeoutResult::Fail, "fail"),
    ] {
        let json = format!(r#"{{"status":"leak","result":"{word}"}}"#);
        is_json(&Result::Leak { result }, &json);
    }
    for (result, word) in [
        (SlowTimeoutResult::Pass, "pass"),
        (SlowTimeoutResult::Fail, "fail"),
    ] {
        let json = format!(r#"{{"status":"timeout","result":"{word}"}}"#);
        is_json(&Result::Timeout { result }, &json);
    }
    is_json(
        &failed(),
        r#"{"status":"fail","failure":{"kind":"exit-code","code":101},"leaked":false}"#,
    );
    let by_signal = Result::Fail {
        failure: FailureDescription::Abort {
            abort: AbortDescription::UnixSignal {
                signal: 11,
                name: Some(String::from("SEGV")),
            },
        },
        leaked: true,
    };
    is_json(
        &by_signal,
        concat!(
            r#"{"status":"fail","failure":{"kind":"abort","abort":"#,
            r#"{"kind":"unix-signal","signal":11,"name":"SEGV"}},"leaked":true}"#
        ),
    );
}
