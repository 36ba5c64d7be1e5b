//! The attempts of tests, and setup scripts.

use std::collections::BTreeMap;
use std::time::Duration;

use crate::common::{attempt_with, caused};
use crate::nextest_json::errors::CAUSED;
use crate::nextest_json::{Archive, FileName, is_json, read, refusal};
use deodarsieve::output_spec::SerializableOutputSpec;
use deodarsieve::*;

#[test]
fn parts_of_an_attempt() {
    let retry = RetryData {
        attempt: 1,
        total_attempts: 3,
    };
    is_json(&retry, r#"{"attempt":1,"total-attempts":3}"#);
    let summary = ErrorSummary {
        short_message: String::from("short"),
        description: String::from("long"),
    };
    is_json(
        &summary,
        r#"{"short-message":"short","description":"long"}"#,
    );
    let slice = OutputErrorSlice {
        slice: String::from("Error: no"),
        start: 40,
    };
    is_json(&slice, r#"{"slice":"Error: no","start":40}"#);
    let env_map = BTreeMap::from([(String::from("A"), String::from("1"))]);
    is_json(&SetupScriptEnvMap { env_map }, r#"{"env-map":{"A":"1"}}"#);
}

/// The output of a process that passed, and its JSON.
fn output() -> (ChildExecutionOutputDescription<Archive>, String) {
    let errors = ErrorList::new(
        UnitKind::WAITING_ON_TEST_MESSAGE,
        vec![ChildErrorDescription::Wait { source: caused() }],
    );
    let output = ChildExecutionOutputDescription::Output {
        result: Some(ExecutionResultDescription::Pass),
        output: FileName(String::from("1.out")),
        errors,
    };
    let json = format!(
        concat!(
            r#"{{"type":"output","result":{{"status":"pass"}},"output":"1.out","errors":"#,
            r#"{{"description":"waiting on test process","#,
            r#""inner":[{{"kind":"wait","source":{}}}]}}}}"#
        ),
        CAUSED
    );
    (output, json)
}

#[test]
fn output_is_what_its_type_is_written_as() {
    let (output, json) = output();
    is_json(&output, &json);
    let running = ChildExecutionOutputDescription::<Archive>::Output {
        result: None,
        output: FileName(String::from("2.out")),
        errors: None,
    };
    is_json(
        &running,
        r#"{"type":"output","result":null,"output":"2.out","errors":null}"#,
    );
}

/// An attempt that passed, and its JSON.
fn attempt() -> (ExecuteStatus<Archive>, String) {
    let (output, output_json) = output();
    let attempt = attempt_with(ExecutionResultDescription::Pass, output);
    let json = format!(
        concat!(
            r#"{{"retry-data":{{"attempt":1,"total-attempts":1}},"output":{},"#,
            r#""result":{{"status":"pass"}},"start-time":"1970-01-01T00:00:00Z","#,
            r#""time-taken":{{"secs":0,"nanos":20000000}},"is-slow":false,"#,
            r#""delay-before-start":{{"secs":0,"nanos":0}},"error-summary":null,"#,
            r#""output-error-slice":null}}"#
        ),
        output_json
    );
    (attempt, json)
}

#[test]
fn attempts_are_in_the_order_of_nextest() {
    let (attempt, json) = attempt();
    is_json(&attempt, &json);
    let test = ExecutionStatuses::new(vec![attempt], FlakyResult::Fail);
    let statuses = format!(r#"{{"statuses":[{json}]"#);
    is_json(&test, &format!(r#"{statuses},"flaky-result":"fail"}}"#));
    let without_setting: ExecutionStatuses<Archive> = read(&format!("{statuses}}}"));
    assert_eq!(without_setting.flaky_result(), FlakyResult::Pass);
    let empty = refusal::<ExecutionStatuses<Archive>>(r#"{"statuses":[]}"#);
    assert!(
        empty.starts_with("a finished test has at least one attempt"),
        "{empty}"
    );
}

#[test]
fn setup_scripts() {
    let (output, output_json) = output();
    let script = SetupScriptExecuteStatus {
        output,
        result: ExecutionResultDescription::Pass,
        start_time: Moment::UNIX_EPOCH,
        time_taken: Duration::from_millis(20),
        is_slow: true,
        env_map: Some(SetupScriptEnvMap {
            env_map: BTreeMap::new(),
        }),
        error_summary: None,
    };
    let json = format!(
        concat!(
            r#"{{"output":{},"result":{{"status":"pass"}},"#,
            r#""start-time":"1970-01-01T00:00:00Z","#,
            r#""time-taken":{{"secs":0,"nanos":20000000}},"is-slow":true,"#,
            r#""env-map":{{"env-map":{{}}}},"error-summary":null}}"#
        ),
        output_json
    );
    is_json(&script, &json);
}

#[test]
fn every_spec_with_serializable_output_is_serializable() {
    fn round_trip<S: SerializableOutputSpec>(test: &ExecutionStatuses<S>) -> ExecutionStatuses<S> {
        read(&serde_json::to_string(test).expect("it is written"))
    }
    let test = ExecutionStatuses::new(vec![attempt().0], FlakyResult::Pass);
    assert_eq!(round_trip(&test), test);
}
