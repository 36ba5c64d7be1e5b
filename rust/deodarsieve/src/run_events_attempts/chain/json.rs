// Made by tools/erase from crates/run_events_attempts/src/chain/json.rt. Do not edit.
//! Errors with their causes as JSON values.

use crate::run_events_attempts::chain::SerializableError;
use alloc::string::String;
use alloc::vec::Vec;
use core::fmt;
use serde_json::{Map, Value};

/// Why a JSON value is not an error with its causes.
#[derive(Clone, Copy, Debug, PartialEq, Eq)]
#[non_exhaustive]
pub enum FromValueError {
    /// The value is not an object.
    NotAnObject,

    /// The object has no member `message`.
    MessageMissing,

    /// The member `message` is not a text.
    MessageNotText,

    /// The member `causes` is not a list. `null` is not a list either.
    CausesNotAList,

    /// A cause is not a text.
    CauseNotText {
        /// The position of the first such cause, counted from 0.
        index: usize,
    },
}

impl fmt::Display for FromValueError {
    fn fmt(&self, f: &mut fmt::Formatter<'_>) -> fmt::Result {
        let text = match self {
            FromValueError::NotAnObject => "the error is not an object",
            FromValueError::MessageMissing => "the error has no member `message`",
            FromValueError::MessageNotText => "the member `message` is not a string",
            FromValueError::CausesNotAList => "the member `causes` is not a list",
            FromValueError::CauseNotText { index } => {
                return write!(f, "the item {index} of `causes` is not a string");
            }
        };
        f.write_str(text)
    }
}

impl SerializableError {
    /// Returns the error as an object with two members: `message`, a text, and `causes`, a list of
    /// texts with the nearest cause first. The list is present even if it is empty.
    #[must_use]
    pub fn to_value(&self) -> Value {
        object_of(self)
    }

    /// Reads an error from an object with a text `message` and a list of texts `causes`. If `causes`
    /// is missing, the error has no cause. Other members are ignored.
    ///
    /// # Errors
    ///
    /// If several errors of [`FromValueError`] apply, returns the one that is declared first. A value
    /// from [`Self::to_value`] is read as an equal error.
    pub fn from_value(value: &Value) -> Result<Self, FromValueError> {
        let message = message_of(value)?;
        let causes = causes_of(value.get("causes"))?;
        Ok(error_of(message, causes))
    }
}

/// Returns an error as an object with a message and a list of causes.
fn object_of(error: &SerializableError) -> Value {
    let mut members = Map::new();
    let message = Value::from(error.message());
    members.insert(String::from("message"), message);
    let causes = Value::Array(causes_as_values(error));
    members.insert(String::from("causes"), causes);
    Value::Object(members)
}

/// Returns the messages of the causes of an error as values, the nearest cause first.
fn causes_as_values(error: &SerializableError) -> Vec<Value> {
    let mut values = Vec::new();
    for cause in error.sources() {
        values.push(Value::from(cause.message()));
    }
    values
}

/// Returns the message of a value.
fn message_of(value: &Value) -> Result<&str, FromValueError> {
    if !value.is_object() {
        return Err(FromValueError::NotAnObject);
    }
    match value.get("message") {
        None => Err(FromValueError::MessageMissing),
        Some(member) => match member.as_str() {
            None => Err(FromValueError::MessageNotText),
            Some(message) => Ok(message),
        },
    }
}

/// Returns the causes in a member of a value, which are none if it is missing.
fn causes_of(member: Option<&Value>) -> Result<&[Value], FromValueError> {
    match member {
        None => Ok(&[]),
        Some(member) => match member.as_array() {
            None => Err(FromValueError::CausesNotAList),
            Some(items) => all_texts(items.as_slice()),
        },
    }
}

/// Returns the values if all of them are texts.
fn all_texts(items: &[Value]) -> Result<&[Value], FromValueError> {
    match first_no_text(items) {
        None => Ok(items),
        Some(index) => Err(FromValueError::CauseNotText { index }),
    }
}

/// Returns the position of the first value that is not a text.
fn first_no_text(items: &[Value]) -> Option<usize> {
    items.iter().position(|item| !item.is_string())
}

/// Returns the error with this message, whose causes are the texts of these values. Values that are
/// not texts are left out.
fn error_of(message: &str, causes: &[Value]) -> SerializableError {
    let mut texts = Vec::with_capacity(causes.len());
    for cause in causes {
        if let Some(text) = cause.as_str() {
            texts.push(String::from(text));
        }
    }
    SerializableError::from_message_and_causes(String::from(message), texts)
}
