// Made by tools/erase from crates/test_report_events/src/content.rt. Do not edit.
//! The event of a line, with texts of its own.

use crate::events::cargo::CargoLine;
use crate::events::event::{CargoFailure, Event, SuiteEnd, SuiteKey, TestDetails, TestResult};

/// An event that has its texts. An [`Event`] borrows them.
#[derive(Clone, Debug)]
pub(crate) enum Content {
    /// A suite starts.
    SuiteStarted {
        key: Option<KeyTexts>,
        test_count: Option<u64>,
    },

    /// A suite ends.
    SuiteEnded(LastLine),

    /// A test starts.
    TestStarted { name: String },

    /// A test ends.
    TestEnded(TestEnd),

    /// A test is slow.
    TestSlow { name: String },

    /// Another line of a test harness.
    Other,

    /// A heading of cargo.
    Heading { suite: String, path: Option<String> },

    /// A failure that cargo or nextest reports.
    Failure {
        failure: CargoFailure,
        line: String,
        plain: String,
    },

    /// A print.
    Print { line: String, plain: String },

    /// A damaged line says that a test or a suite failed.
    Damaged(String),
}

/// The key of a suite.
#[derive(Clone, Debug)]
pub(crate) struct KeyTexts {
    package: String,
    binary: String,
    stress_index: Option<u64>,
}

/// The last line of a suite.
#[derive(Clone, Debug)]
pub(crate) struct LastLine {
    key: Option<KeyTexts>,
    failed_verdict: bool,
    passed: Option<u64>,
    failed: Option<u64>,
    ignored: Option<u64>,
    measured: Option<u64>,
    time: Option<u64>,
}

/// The end of a test.
#[derive(Clone, Debug)]
pub(crate) struct TestEnd {
    name: String,
    result: TestResult,
    stdout: Option<String>,
    message: Option<String>,
    reason: Option<String>,
    time: Option<u64>,
}

impl Content {
    /// Returns the start of a suite with a copy of its texts.
    pub(crate) fn suite_started(key: Option<SuiteKey<'_>>, test_count: Option<u64>) -> Content {
        Content::SuiteStarted {
            key: key_texts(key),
            test_count,
        }
    }

    /// Returns the end of a suite with a copy of its texts.
    pub(crate) fn suite_ended(end: SuiteEnd<'_>) -> Content {
        Content::SuiteEnded(LastLine {
            key: key_texts(end.key),
            failed_verdict: end.failed_verdict,
            passed: end.passed,
            failed: end.failed,
            ignored: end.ignored,
            measured: end.measured,
            time: end.time,
        })
    }

    /// Returns the start of a test with a copy of its name.
    pub(crate) fn test_started(name: &str) -> Content {
        Content::TestStarted {
            name: String::from(name),
        }
    }

    /// Returns the end of a test with a copy of its texts.
    pub(crate) fn test_ended(name: &str, outcome: TestResult, details: TestDetails<'_>) -> Content {
        Content::TestEnded(TestEnd {
            name: String::from(name),
            result: outcome,
            stdout: owned(details.stdout),
            message: owned(details.message),
            reason: owned(details.reason),
            time: details.time,
        })
    }

    /// Returns a failure that cargo or nextest reports with a copy of its texts.
    fn failure(failure: CargoFailure, line: &str, plain: &str) -> Content {
        Content::Failure {
            failure,
            line: String::from(line),
            plain: String::from(plain),
        }
    }

    /// Returns a print with a copy of its texts.
    pub(crate) fn print(line: &str, plain: &str) -> Content {
        Content::Print {
            line: String::from(line),
            plain: String::from(plain),
        }
    }

    /// Returns the content of a line of cargo. `shown` is the text of the line, if it is a failure.
    pub(crate) fn of_cargo(says: CargoLine<'_>, shown: &str, text: &str) -> Content {
        match says {
            CargoLine::Heading(heading) => Content::Heading {
                path: owned(heading.path()),
                suite: heading.suite(),
            },
            CargoLine::Failure(failure) => Content::failure(failure, shown, text),
        }
    }

    /// Returns the event, which borrows its texts.
    pub(crate) fn event(&self) -> Event<'_> {
        match self {
            Content::SuiteStarted { key, test_count } => Event::SuiteStarted {
                key: key.as_ref().map(KeyTexts::key),
                test_count: *test_count,
            },
            Content::SuiteEnded(end) => Event::SuiteEnded(end.end()),
            Content::TestStarted { name } => Event::TestStarted {
                name: name.as_str(),
            },
            Content::TestEnded(end) => end.event(),
            Content::TestSlow { name } => Event::TestSlow {
                name: name.as_str(),
            },
            Content::Other => Event::Other,
            Content::Heading { suite, path } => Event::Heading {
                suite: suite.as_str(),
                path: path.as_ref().map(String::as_str),
            },
            Content::Failure {
                failure,
                line,
                plain,
            } => Event::CargoFailed {
                failure: *failure,
                line: line.as_str(),
                plain: plain.as_str(),
            },
            Content::Print { line, plain } => Event::Print {
                line: line.as_str(),
                plain: plain.as_str(),
            },
            Content::Damaged(text) => Event::Damaged {
                text: text.as_str(),
            },
        }
    }
}

impl KeyTexts {
    /// Returns a key with a copy of its texts.
    fn of(key: SuiteKey<'_>) -> KeyTexts {
        KeyTexts {
            package: String::from(key.package),
            binary: String::from(key.binary),
            stress_index: key.stress_index,
        }
    }

    /// Returns the key, which borrows its texts.
    fn key(&self) -> SuiteKey<'_> {
        SuiteKey {
            package: self.package.as_str(),
            binary: self.binary.as_str(),
            stress_index: self.stress_index,
        }
    }
}

/// Returns a key that may be absent with a copy of its texts.
fn key_texts(key: Option<SuiteKey<'_>>) -> Option<KeyTexts> {
    match key {
        Some(key) => Some(KeyTexts::of(key)),
        None => None,
    }
}

impl LastLine {
    /// Returns the end of the suite, which borrows its texts.
    fn end(&self) -> SuiteEnd<'_> {
        SuiteEnd {
            key: self.key.as_ref().map(KeyTexts::key),
            failed_verdict: self.failed_verdict,
            passed: self.passed,
            failed: self.failed,
            ignored: self.ignored,
            measured: self.measured,
            time: self.time,
        }
    }
}

impl TestEnd {
    /// Returns the event, which borrows its texts.
    fn event(&self) -> Event<'_> {
        Event::TestEnded {
            name: self.name.as_str(),
            result: self.result,
            details: TestDetails {
                stdout: self.stdout.as_ref().map(String::as_str),
                message: self.message.as_ref().map(String::as_str),
                reason: self.reason.as_ref().map(String::as_str),
                time: self.time,
            },
        }
    }
}

/// Copies a text that may be absent.
pub(crate) fn owned(text: Option<&str>) -> Option<String> {
    match text {
        Some(text) => Some(String::from(text)),
        None => None,
    }
}
