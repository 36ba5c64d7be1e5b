//! Errors with their causes, and lists of errors.

use crate::run_events_attempts::chain::SerializableError;
use crate::run_events_attempts::child::ErrorList;
use ::serde::de::Error;
use ::serde::{Deserialize, Deserializer, Serialize, Serializer};
use alloc::vec::Vec;

/// The message of an error, and the messages of its causes. If there are no `causes` to read, the error
/// has none.
#[derive(Serialize, Deserialize)]
struct ErrorFields<Message, Causes> {
    message: Message,
    #[serde(default)]
    causes: Causes,
}

/// Writes a struct with the message and the list of the messages of all causes, the nearest first.
impl Serialize for SerializableError {
    fn serialize<S: Serializer>(&self, serializer: S) -> Result<S::Ok, S::Error> {
        let message = self.message();
        let causes: Vec<&str> = self.sources().map(Self::message).collect();
        ErrorFields { message, causes }.serialize(serializer)
    }
}

impl<'de> Deserialize<'de> for SerializableError {
    fn deserialize<D: Deserializer<'de>>(deserializer: D) -> Result<Self, D::Error> {
        let ErrorFields { message, causes } = ErrorFields::deserialize(deserializer)?;
        Ok(SerializableError::from_message_and_causes(message, causes))
    }
}

/// The description of a list of errors, and the errors.
#[derive(Serialize, Deserialize)]
struct ListFields<Description, Errors> {
    description: Description,
    inner: Errors,
}

/// Writes a struct with the `description` and the errors, which are called `inner`.
impl<T: Serialize> Serialize for ErrorList<T> {
    fn serialize<S: Serializer>(&self, serializer: S) -> Result<S::Ok, S::Error> {
        let description = self.description();
        let inner = self.iter().as_slice();
        ListFields { description, inner }.serialize(serializer)
    }
}

/// An empty list is an error.
impl<'de, T: Deserialize<'de>> Deserialize<'de> for ErrorList<T> {
    fn deserialize<D: Deserializer<'de>>(deserializer: D) -> Result<Self, D::Error> {
        let ListFields { description, inner } = ListFields::deserialize(deserializer)?;
        let list = ErrorList::new("", inner)
            .ok_or_else(|| D::Error::custom("a list of errors is empty"))?;
        Ok(ErrorList {
            description,
            ..list
        })
    }
}
