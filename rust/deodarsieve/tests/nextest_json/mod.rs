//! The JSON of every type that nextest serializes. The texts are what `serde` makes of the
//! attributes that nextest's types have.
#![cfg(feature = "serde")]

mod attempts;
mod errors;
mod moments;
mod results;
mod statistics;
mod words;

use std::any::type_name;
use std::fmt::Debug;

use deodarsieve::OutputSpec;
use serde::de::DeserializeOwned;
use serde::{Deserialize, Serialize};
use serde_json::Value;

/// Output that is a file in an archive.
#[derive(Debug)]
struct Archive;

/// The name of a file in an archive.
#[derive(Clone, Debug, PartialEq, Eq, Serialize, Deserialize)]
struct FileName(String);

impl OutputSpec for Archive {
    type ChildOutputDesc = FileName;
}

/// The members that JSON of a type may lack. It must have all others.
const OPTIONAL: [(&str, &[&str]); 11] = [
    ("AbortDescription", &["name", "message"]),
    ("ChildExecutionOutputDescription", &["result", "errors"]),
    ("ExecuteStatus", &["error-summary", "output-error-slice"]),
    ("ExecutionStatuses", &["flaky-result"]),
    ("FinalRunStats", &["reason"]),
    ("RunFinishedStats", &["cancel-reason"]),
    ("RunStats", &["cancel-reason"]),
    ("SerializableError", &["causes"]),
    ("SetupScriptExecuteStatus", &["env-map", "error-summary"]),
    ("StressIndex", &["total"]),
    ("TestSlotAssignment", &["group-slot"]),
];

/// Asserts that a value is written as a text, and is read from it. It is also read from the text
/// with one member more. Without a member it is not read, except without those in [`OPTIONAL`].
fn is_json<T: Serialize + DeserializeOwned + Debug + PartialEq>(value: &T, json: &str) {
    assert_eq!(serde_json::to_string(value).expect("it is written"), json);
    assert_eq!(&read::<T>(json), value, "{json}");
    let Value::Object(members) = read::<Value>(json) else {
        return;
    };
    let mut more = members.clone();
    more.insert(String::from("no-such-member"), Value::Null);
    let read_again = serde_json::from_value::<T>(Value::Object(more));
    assert_eq!(&read_again.expect("it is read"), value, "{json}");
    let optional = optional_members(type_name::<T>());
    for name in members.keys() {
        let mut less = members.clone();
        less.remove(name);
        let is_read = serde_json::from_value::<T>(Value::Object(less)).is_ok();
        assert_eq!(
            is_read,
            optional.contains(&name.as_str()),
            "{name} of {json}"
        );
    }
}

/// Returns the members that JSON of a type may lack, from the full name of the type.
fn optional_members(type_name: &str) -> &'static [&'static str] {
    let path = type_name.split('<').next().unwrap_or_default();
    let name = path.rsplit("::").next().unwrap_or_default();
    let found = OPTIONAL.iter().find(|(owner, _)| *owner == name);
    found.map_or(&[], |(_, members)| *members)
}

/// Reads a value from a text.
fn read<T: DeserializeOwned>(json: &str) -> T {
    serde_json::from_str(json).unwrap_or_else(|error| panic!("{json}: {error}"))
}

/// Asserts that each value is written as its word, and is read from it.
fn are_words<T: Serialize + DeserializeOwned + Debug + PartialEq>(words: &[(T, &str)]) {
    for (value, word) in words {
        is_json(value, &format!("{word:?}"));
    }
}

/// Why a text is not read as a value of a type.
fn refusal<T: DeserializeOwned + Debug>(json: &str) -> String {
    serde_json::from_str::<T>(json)
        .expect_err("it is not read")
        .to_string()
}
