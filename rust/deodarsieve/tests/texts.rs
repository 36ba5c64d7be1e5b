//! Texts of `Display` and `Debug` that are those of nextest's types. A type here with the same
//! derived traits says what a derived `Debug` writes.

use std::time::Duration;

use crate::common::caused;
use bytes::Bytes;
use deodarsieve::{
    ByteSubslice, ChildSingleOutput, NonZeroDuration, SerializableError, TestOutputErrorSlice,
};

/// Types with the names and the fields of nextest's, whose `Debug` is derived.
mod derived {
    use std::time::Duration;

    #[derive(Debug)]
    pub struct NonZeroDuration(#[allow(dead_code, reason = "`Debug` reads it")] pub Duration);

    #[derive(Debug)]
    #[allow(dead_code, reason = "`Debug` reads the fields")]
    pub struct SerializableError {
        pub message: String,
        pub source: Option<Box<SerializableError>>,
    }

    #[derive(Debug)]
    #[allow(dead_code, reason = "`Debug` reads the field")]
    pub struct SerializableErrorSources<'a> {
        pub current: Option<&'a SerializableError>,
    }

    /// The same error, as nextest's type.
    pub fn like(error: &deodarsieve::SerializableError) -> SerializableError {
        SerializableError {
            message: String::from(error.message()),
            source: error.cause().map(|cause| Box::new(like(cause))),
        }
    }
}

/// The texts of a value with `{:?}`, with `{:#?}`, and inside another value.
macro_rules! debugged {
    ($value:expr) => {{
        let value = $value;
        [
            format!("{value:?}"),
            format!("{value:#?}"),
            format!("{:?}", Some(&value)),
            format!("{:#?}", Some(&value)),
        ]
    }};
}

#[test]
fn an_error_is_debugged_with_its_causes() {
    let quoted = String::from("a \"quoted\"\nmessage");
    let errors = [
        caused(),
        SerializableError::from_message_and_causes(quoted.clone(), vec![]),
        SerializableError::from_message_and_causes(String::new(), vec![quoted]),
    ];
    for error in errors {
        assert_eq!(debugged!(&error), debugged!(derived::like(&error)));
        let like = derived::like(&error);
        let sources = derived::SerializableErrorSources {
            current: like.source.as_deref(),
        };
        assert_eq!(debugged!(error.sources()), debugged!(sources));
    }
    assert_eq!(
        format!("{:?}", caused()),
        concat!(
            r#"SerializableError { message: "outer", source: "#,
            r#"Some(SerializableError { message: "middle", source: "#,
            r#"Some(SerializableError { message: "inner", source: None }) }) }"#
        )
    );
}

#[test]
fn a_duration_is_debugged_as_a_tuple() {
    let span = Duration::from_millis(1_500);
    let duration = NonZeroDuration::new(span).expect("it is not zero");
    assert_eq!(
        debugged!(duration),
        debugged!(derived::NonZeroDuration(span))
    );
    assert_eq!(format!("{duration:?}"), "NonZeroDuration(1.5s)");
}

#[test]
fn bytes_are_debugged_as_text() {
    let slice = b"Error: \"no\"\n";
    let part = ByteSubslice { slice, start: 3 };
    let wanted = r#"ByteSubslice { slice: "Error: \"no\"\n", start: 3 }"#;
    assert_eq!(format!("{part:?}"), wanted);
    let output = ChildSingleOutput::from(Bytes::from_static(slice));
    let wanted = r#"ChildSingleOutput { buf: "Error: \"no\"\n" }"#;
    assert_eq!(format!("{output:?}"), wanted);
}

#[test]
fn no_format_changes_a_slice() {
    let stderr = b"Error: \xff no\n";
    let slice = TestOutputErrorSlice::heuristic_extract(None, Some(stderr))
        .expect("a line begins with `Error: `");
    let texts = [
        format!("{slice}"),
        format!("{slice:30}"),
        format!("{slice:>30}"),
        format!("{slice:.3}"),
        format!("{slice:-^30}"),
    ];
    assert_eq!(texts, [const { "Error: \u{fffd} no" }; 5]);
}
