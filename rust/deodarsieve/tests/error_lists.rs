//! Lists of errors as errors, the errors of a unit, errors of the operating system, and captured
//! text.

use std::error::Error;

use crate::common::{self, caused, failed};
use bytes::Bytes;
use deodarsieve::{
    AbortDescription, ChildErrorDescription, ChildExecutionOutputDescription,
    ChildOutputDescription, ChildSingleOutput, ChildStartErrorDescription, ErrorList,
    ExecutionResultDescription, FailureDescription, LiveSpec, SerializableError,
    UnitErrorDescription, UnitKind,
};

/// An error with this message and these causes.
fn error(message: &str, causes: &[&str]) -> SerializableError {
    let causes = causes.iter().copied().map(String::from).collect();
    SerializableError::from_message_and_causes(String::from(message), causes)
}

/// A list of these errors.
fn list(errors: Vec<SerializableError>) -> ErrorList<SerializableError> {
    ErrorList::new("waiting on the kettle", errors).expect("there are errors")
}

#[test]
fn one_error_is_shown_as_itself() {
    let one = list(vec![error("cannot read", &["closed", "gone"])]);
    assert_eq!(one.to_string(), "cannot read");
    assert_eq!(one.short_message(), "cannot read");
    let source = one.source().expect("the error has a cause");
    assert_eq!(source.to_string(), "closed");
    assert!(list(vec![error("alone", &[])]).source().is_none());
}

#[test]
fn several_errors_are_shown_with_their_causes() {
    let several = list(vec![
        error("cannot read", &["closed", "gone"]),
        error("two\n\nlines", &["a cause\nof two lines"]),
        error("alone", &[]),
    ]);
    let text = "3 errors occurred waiting on the kettle:
* cannot read
    caused by:
    - closed
    - gone
* two

  lines
    caused by:
    - a cause
      of two lines
* alone
";
    assert_eq!(several.to_string(), text);
    assert!(several.source().is_none());
    assert_eq!(
        several.short_message(),
        "3 errors occurred waiting on the kettle"
    );
    let boxed: Box<dyn Error> = Box::new(several);
    assert_eq!(boxed.to_string(), text);
}

/// Output with a panic message and an error in reading it, of a test that a signal ended.
fn aborted() -> ChildExecutionOutputDescription<LiveSpec> {
    let stderr = ChildSingleOutput::from(Bytes::from_static(b"Error: no\n"));
    ChildExecutionOutputDescription::Output {
        result: Some(ExecutionResultDescription::Fail {
            failure: FailureDescription::Abort {
                abort: AbortDescription::WindowsJobObject,
            },
            leaked: false,
        }),
        output: ChildOutputDescription::Split {
            stdout: None,
            stderr: Some(stderr),
        },
        errors: ErrorList::new(
            "reading",
            vec![ChildErrorDescription::ReadStderr { source: caused() }],
        ),
    }
}

/// The messages of an error and its sources.
fn messages(error: &dyn Error) -> Vec<String> {
    std::iter::successors(Some(error), |&error| error.source())
        .map(ToString::to_string)
        .collect()
}

/// The description of a list and the messages of its errors, or `None` if there is no list.
fn shown(errors: Option<ErrorList<&dyn Error>>) -> Option<(String, Vec<Vec<String>>)> {
    errors.map(|errors| {
        let shown = errors.iter().map(|&error| messages(error)).collect();
        (String::from(errors.description()), shown)
    })
}

#[test]
fn the_errors_of_a_unit_are_errors_of_any_type() {
    let output = aborted();
    let description = UnitErrorDescription::new(UnitKind::Test, &output);
    let reading = ["error reading standard error", "outer", "middle", "inner"]
        .map(String::from)
        .to_vec();
    let abort = vec![String::from("process terminated via job object")];
    let slice = vec![String::from("Error: no")];
    let list = |errors| Some((String::from("executing test"), errors));
    assert_eq!(
        shown(description.exec_fail_error_list()),
        list(vec![reading.clone()])
    );
    assert_eq!(
        shown(description.child_process_error_list()),
        list(vec![abort.clone(), slice.clone()])
    );
    assert_eq!(
        shown(description.all_error_list()),
        list(vec![reading, abort, slice])
    );
    let all = description.all_error_list().expect("there are errors");
    let text = "3 errors occurred executing test:
* error reading standard error
    caused by:
    - outer
    - middle
    - inner
* process terminated via job object
* Error: no
";
    assert_eq!(all.to_string(), text);
}

#[test]
fn a_unit_without_errors_has_no_list() {
    let passed = common::not_loaded(ExecutionResultDescription::Pass);
    let description = UnitErrorDescription::new(UnitKind::Test, &passed);
    assert!(description.all_error_list().is_none());
    assert!(description.exec_fail_error_list().is_none());
    assert!(description.child_process_error_list().is_none());
    let failed = common::not_loaded(failed());
    let script = UnitErrorDescription::new(UnitKind::Script, &failed);
    assert!(script.all_error_list().is_none());
}

#[test]
fn the_lists_of_unit_errors_have_the_same_errors() {
    let start = ChildStartErrorDescription::Spawn { source: caused() };
    for output in [
        aborted(),
        ChildExecutionOutputDescription::StartError(start),
    ] {
        for kind in [UnitKind::Test, UnitKind::Script] {
            let description = UnitErrorDescription::new(kind, &output);
            let pairs = [
                (description.unit_errors(), description.all_error_list()),
                (
                    description.exec_fail_unit_errors(),
                    description.exec_fail_error_list(),
                ),
                (
                    description.child_process_unit_errors(),
                    description.child_process_error_list(),
                ),
            ];
            for (typed, errors) in pairs {
                let typed = typed.as_ref().map(|typed| {
                    let shown = typed.iter().map(|error| messages(error)).collect();
                    (String::from(typed.description()), shown)
                });
                assert_eq!(typed, shown(errors));
            }
        }
    }
}

#[cfg(feature = "std")]
mod of_the_system {
    use std::fmt;
    use std::io;
    use std::sync::Arc;

    use super::{Error, caused, messages};
    use deodarsieve::{
        ChildError, ChildErrorDescription, ChildFdError, ChildStartError,
        ChildStartErrorDescription, SerializableError,
    };

    #[test]
    fn an_error_of_the_system_keeps_its_message() {
        let missing = || io::Error::from_raw_os_error(2);
        let shared = SerializableError::from(Arc::new(missing()));
        assert_eq!(shared, SerializableError::from(missing()));
        assert_eq!(shared.message(), missing().to_string());
        assert_eq!(shared.cause(), None);
    }

    #[test]
    fn an_error_of_the_system_keeps_its_sources() {
        /// An error with a cause.
        #[derive(Debug)]
        struct Outermost(SerializableError);

        impl fmt::Display for Outermost {
            fn fmt(&self, f: &mut fmt::Formatter<'_>) -> fmt::Result {
                f.write_str("outermost")
            }
        }

        impl Error for Outermost {
            fn source(&self) -> Option<&(dyn Error + 'static)> {
                Some(&self.0)
            }
        }

        let error = Arc::new(io::Error::other(Outermost(caused())));
        let start = ChildStartError::TempPath(Arc::clone(&error).into());
        let fd = ChildError::Fd(ChildFdError::Wait(error.into()));
        // The message of an `io::Error` is that of the error inside it, whose sources it has.
        let wanted =
            |first: &str| [first, "outermost", "outer", "middle", "inner"].map(String::from);
        assert_eq!(
            messages(&ChildStartErrorDescription::from(start)),
            wanted("error creating temporary path for setup script")
        );
        assert_eq!(
            messages(&ChildErrorDescription::from(fd)),
            wanted("error waiting for child process to exit")
        );
        let not_shared = SerializableError::from(io::Error::other(Outermost(caused())));
        let sources = ["outermost", "outer", "middle", "inner"].map(String::from);
        assert_eq!(messages(&not_shared), sources);
    }
}

#[cfg(feature = "std")]
#[test]
fn captured_bytes_are_text() {
    let text = ChildSingleOutput::from(Bytes::from_static("à la carte\n".as_bytes()));
    assert_eq!(text.as_str_lossy(), "à la carte\n");
    let damaged = ChildSingleOutput::from(Bytes::from_static(b"a\xf0\x9f\x92b\xffc"));
    let lossy = damaged.as_str_lossy();
    assert_eq!(lossy, "a\u{fffd}b\u{fffd}c");
    assert!(std::ptr::eq(lossy, damaged.as_str_lossy()));
    assert_eq!(damaged, ChildSingleOutput::from(damaged.buf().clone()));
    assert_ne!(damaged, text);
    let other = ChildSingleOutput::from(Bytes::from_static("à la cart!\n".as_bytes()));
    assert_eq!(other.buf().len(), text.buf().len());
    assert_ne!(other, text);
}
