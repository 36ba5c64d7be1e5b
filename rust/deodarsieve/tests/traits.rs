//! The traits of `std` that the types have, called as a user calls them.

use std::collections::{BTreeMap, HashMap};
use std::error::Error;

use crate::common::{attempt_with, caused, failed};
use deodarsieve::{
    AbortDescription, ChildError, ChildErrorDescription, ChildExecutionOutputDescription,
    ChildFdError, ChildStartError, ChildStartErrorDescription, EmptyStatuses, ErrorList,
    ExecutionDescription, ExecutionResultDescription, ExecutionStatuses, FlakyResult, OutputSpec,
    OwnedTestInstanceId, RunStats, SerializableError, TestInstanceId, TestOutputErrorSlice,
    TestView, UnitAbortDescription, UnitError,
};

/// Output that is a file in an archive. It has no trait at all.
#[derive(Debug)]
struct Archive;

/// The name of a file in an archive.
#[derive(Clone, Debug, PartialEq, Eq)]
struct FileName(&'static str);

impl OutputSpec for Archive {
    type ChildOutputDesc = FileName;
}

/// A test of an archived run with one attempt.
fn archived(result: ExecutionResultDescription) -> ExecutionStatuses<Archive> {
    let output = ChildExecutionOutputDescription::Output {
        result: Some(result.clone()),
        output: FileName("1.out"),
        errors: ErrorList::new(
            "reading",
            vec![ChildErrorDescription::Wait { source: caused() }],
        ),
    };
    ExecutionStatuses::new(vec![attempt_with(result, output)], FlakyResult::Pass)
}

/// The messages of an error and its sources.
fn messages(error: &dyn Error) -> Vec<String> {
    std::iter::successors(Some(error), |&error| error.source())
        .map(ToString::to_string)
        .collect()
}

#[test]
fn records_have_the_traits_of_their_description_of_output() {
    let test = archived(ExecutionResultDescription::Pass);
    assert_eq!(test.clone(), test);
    assert_ne!(test, archived(failed()));
    let shown = format!("{test:?}");
    assert!(
        shown.starts_with("ExecutionStatuses { statuses: [ExecuteStatus {"),
        "{shown}"
    );
    assert!(shown.contains("output: FileName(\"1.out\")"), "{shown}");
    assert!(shown.ends_with("flaky_result: Pass }"), "{shown}");

    let ExecutionDescription::Success { single_status } = test.describe() else {
        panic!("one attempt that passed is a success");
    };
    assert_eq!(single_status, test.last_status());
    assert!(format!("{:?}", test.describe()).starts_with("Success { single_status: "));
}

#[test]
fn a_start_error_is_equal_to_the_same_alone() {
    let error = ChildStartErrorDescription::Spawn { source: caused() };
    let start = ChildExecutionOutputDescription::<Archive>::StartError(error);
    assert_eq!(start.clone(), start);
    assert_ne!(start, archived(failed()).last_status().output);
    assert!(format!("{start:?}").starts_with("StartError(Spawn { source: SerializableError {"));
}

#[test]
fn attempts_and_errors_are_iterated_by_reference_and_by_value() {
    let test = archived(failed());
    let mut attempts = 0;
    for attempt in &test {
        attempts += usize::from(!attempt.result.is_success());
    }
    assert_eq!(
        (attempts, test.iter().len(), test.into_iter().len()),
        (1, 1, 1)
    );

    let errors = ErrorList::new("adding", vec![1, 2, 3]).expect("the list is not empty");
    let mut sum = 0;
    for error in &errors {
        sum += error;
    }
    let doubled = errors.map(|error| error * 2);
    assert_eq!((sum, doubled.description()), (6, "adding"));
    assert_eq!(doubled.into_iter().collect::<Vec<_>>(), [2, 4, 6]);
}

#[test]
fn errors_go_into_a_box_with_all_that_caused_them() {
    let chain = ["outer", "middle", "inner"];
    let with = |first: &str| {
        let mut messages = vec![String::from(first)];
        messages.extend(chain.map(String::from));
        messages
    };
    let errors: [(Box<dyn Error>, Vec<String>); 9] = [
        (Box::new(caused()), chain.map(String::from).to_vec()),
        (
            Box::new(ChildStartError::TempPath(caused())),
            with("error creating temporary path for setup script"),
        ),
        (
            Box::new(ChildStartError::Spawn(caused())),
            with("error spawning child process"),
        ),
        (
            Box::new(ChildFdError::ReadStdout(caused())),
            with("error reading standard output"),
        ),
        (
            Box::new(ChildFdError::ReadStderr(caused())),
            with("error reading standard error"),
        ),
        (
            Box::new(ChildFdError::ReadCombined(caused())),
            with("error reading combined stream"),
        ),
        (
            Box::new(ChildError::Fd(ChildFdError::Wait(caused()))),
            with("error waiting for child process to exit"),
        ),
        (
            Box::new(ChildError::SetupScriptOutput(caused())),
            with("error reading setup script output"),
        ),
        (
            Box::new(ChildStartErrorDescription::Spawn { source: caused() }),
            with("error spawning child process"),
        ),
    ];
    for (error, wanted) in errors {
        assert_eq!(messages(error.as_ref()), wanted);
    }
}

#[test]
fn the_texts_of_a_runners_errors_are_those_of_their_descriptions() {
    let start = [
        ChildStartError::TempPath(caused()),
        ChildStartError::Spawn(caused()),
    ];
    for error in start {
        let text = error.to_string();
        assert_eq!(ChildStartErrorDescription::from(error).to_string(), text);
    }
    let child = [
        ChildError::Fd(ChildFdError::ReadStdout(caused())),
        ChildError::Fd(ChildFdError::ReadStderr(caused())),
        ChildError::Fd(ChildFdError::ReadCombined(caused())),
        ChildError::Fd(ChildFdError::Wait(caused())),
        ChildError::SetupScriptOutput(caused()),
    ];
    for error in child {
        let found = messages(&error);
        assert_eq!(messages(&ChildErrorDescription::from(error)), found);
    }
}

#[test]
fn errors_of_a_unit_have_the_sources_of_what_they_hold() {
    let start = ChildStartErrorDescription::Spawn { source: caused() };
    let child = ChildErrorDescription::Wait { source: caused() };
    let signal = AbortDescription::UnixSignal {
        signal: 15,
        name: None,
    };
    let abort = UnitAbortDescription {
        description: &signal,
        leaked: true,
    };
    let slice = TestOutputErrorSlice::heuristic_extract(None, Some(b"Error: no\n"))
        .expect("a line begins with `Error: `");
    assert_eq!(messages(&UnitError::Start(&start)).len(), 4);
    assert_eq!(messages(&UnitError::Output(&child)).len(), 4);
    let aborted = ["process aborted with signal 15 (leaked handles)"];
    assert_eq!(messages(&UnitError::Abort(abort)), aborted);
    assert_eq!(messages(&abort), aborted);
    assert_eq!(messages(&UnitError::Slice(slice)), ["Error: no"]);
    assert_eq!(messages(&slice), ["Error: no"]);
}

#[test]
fn an_error_is_propagated_with_a_question_mark() {
    fn first() -> Result<(), Box<dyn Error>> {
        Err(caused())?
    }
    fn second() -> Result<(), Box<dyn Error + Send + Sync>> {
        Err(EmptyStatuses)?
    }
    fn third() -> Result<(), Box<dyn Error>> {
        let mut stats = RunStats {
            finished_count: usize::MAX,
            ..RunStats::default()
        };
        stats.try_on_test_view(&TestView::new(&ExecutionResultDescription::Pass))?;
        Ok(())
    }
    let texts = [
        first().expect_err("it fails").to_string(),
        second().expect_err("it fails").to_string(),
        third().expect_err("it fails").to_string(),
    ];
    let empty = "a finished test has at least one attempt, but the list of attempts is empty";
    assert_eq!(texts, ["outer", empty, "a counter is full"]);
}

#[test]
fn maps_are_keyed_by_a_test() {
    let id = TestInstanceId {
        binary_id: "crate::bin",
        test_name: "adds",
    };
    let owned = OwnedTestInstanceId {
        binary_id: String::from("crate::bin"),
        test_name: String::from("adds"),
    };
    let by_hash: HashMap<_, _> = [(id, 1)].into();
    let by_order: BTreeMap<_, _> = [(owned.clone(), 2)].into();
    assert_eq!((by_hash[&id], by_order[&owned]), (1, 2));
}

#[test]
fn errors_are_equal_if_their_causes_are() {
    assert_eq!(caused().clone(), caused());
    assert_ne!(
        caused(),
        SerializableError::from_message_and_causes(String::from("outer"), vec![])
    );
}

#[cfg(feature = "serde_json")]
#[test]
fn what_is_wrong_with_a_value_is_a_sentence() {
    use deodarsieve::FromValueError;
    use serde_json::json;

    let cases = [
        (
            json!(1),
            FromValueError::NotAnObject,
            "the error is not an object",
        ),
        (
            json!({}),
            FromValueError::MessageMissing,
            "the error has no member `message`",
        ),
        (
            json!({"message": 1}),
            FromValueError::MessageNotText,
            "the member `message` is not a string",
        ),
        (
            json!({"message": "m", "causes": null}),
            FromValueError::CausesNotAList,
            "the member `causes` is not a list",
        ),
        (
            json!({"message": "m", "causes": ["a", 1]}),
            FromValueError::CauseNotText { index: 1 },
            "the item 1 of `causes` is not a string",
        ),
    ];
    for (value, wanted, text) in cases {
        let found: Box<dyn Error> =
            Box::new(SerializableError::from_value(&value).expect_err("the value is no error"));
        assert_eq!(found.downcast_ref(), Some(&wanted));
        assert_eq!(found.to_string(), text);
    }
}
