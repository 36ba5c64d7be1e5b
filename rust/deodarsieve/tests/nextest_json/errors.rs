//! Errors, and lists of them.

use crate::common::caused;
use crate::nextest_json::{Archive, is_json, read, refusal};
use deodarsieve::*;

/// The JSON of the error `outer` with two causes.
pub const CAUSED: &str = r#"{"message":"outer","causes":["middle","inner"]}"#;

#[test]
fn errors_have_a_message_and_causes() {
    is_json(&caused(), CAUSED);
    let alone = SerializableError::from_message_and_causes(String::from("alone"), vec![]);
    is_json(&alone, r#"{"message":"alone","causes":[]}"#);
    assert_eq!(
        read::<SerializableError>(r#"{"message":"alone","more":1}"#),
        alone
    );
    assert_eq!(read::<SerializableError>(r#"["alone"]"#), alone);
    assert_eq!(
        read::<SerializableError>(r#"["outer",["middle","inner"]]"#),
        caused()
    );
    let refused = refusal::<SerializableError>(r#"{"causes":[]}"#);
    assert!(refused.starts_with("missing field `message`"), "{refused}");
}

#[test]
fn errors_of_processes_have_the_tag_kind() {
    let source = caused;
    let start = [
        (
            ChildStartErrorDescription::TempPath { source: source() },
            "temp-path",
        ),
        (
            ChildStartErrorDescription::Spawn { source: source() },
            "spawn",
        ),
    ];
    for (error, kind) in start {
        let members = format!(r#""kind":"{kind}","source":{CAUSED}}}"#);
        is_json(&error, &format!("{{{members}"));
        let output = ChildExecutionOutputDescription::<Archive>::StartError(error);
        is_json(&output, &format!(r#"{{"type":"start-error",{members}"#));
    }
    let child = [
        (
            ChildErrorDescription::ReadStdout { source: source() },
            "read-stdout",
        ),
        (
            ChildErrorDescription::ReadStderr { source: source() },
            "read-stderr",
        ),
        (
            ChildErrorDescription::ReadCombined { source: source() },
            "read-combined",
        ),
        (ChildErrorDescription::Wait { source: source() }, "wait"),
        (
            ChildErrorDescription::SetupScriptOutput { source: source() },
            "setup-script-output",
        ),
    ];
    for (error, kind) in child {
        is_json(&error, &format!(r#"{{"kind":"{kind}","source":{CAUSED}}}"#));
    }
}

#[test]
fn lists_of_errors_keep_their_description() {
    let descriptions = [
        UnitKind::WAITING_ON_TEST_MESSAGE,
        UnitKind::WAITING_ON_SCRIPT_MESSAGE,
        UnitKind::EXECUTING_TEST_MESSAGE,
        UnitKind::EXECUTING_SCRIPT_MESSAGE,
        "watching the pipes",
    ];
    for description in descriptions {
        let list = ErrorList::new(description, vec![caused()]).expect("there is an error");
        let json = format!(r#"{{"description":"{description}","inner":[{CAUSED}]}}"#);
        is_json(&list, &json);
    }
    let empty = refusal::<ErrorList<SerializableError>>(r#"{"description":"a","inner":[]}"#);
    assert!(empty.starts_with("a list of errors is empty"), "{empty}");
}
