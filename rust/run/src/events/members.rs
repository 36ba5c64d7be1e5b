// Made by tools/erase from crates/test_report_events/src/members.rt. Do not edit.
//! The members of the JSON object of an event.

use crate::events::content::Content;
use crate::events::event::{SuiteEnd, SuiteKey, TestDetails, TestResult};
use crate::events::time::exec_time;
use serde_json::Value;

/// The greatest number of tests that a line can have.
const GREATEST_COUNT: u64 = 0xFFFF_FFFF;

/// The members of an object that lines of tests have. One pass over the object finds all of them.
#[derive(Clone, Copy, Debug)]
pub(crate) struct Members<'a> {
    object: &'a Value,
    kind: Option<&'a Value>,
    event: Option<&'a Value>,
    name: Option<&'a Value>,
    stdout: Option<&'a Value>,
    message: Option<&'a Value>,
    reason: Option<&'a Value>,
    time: Option<&'a Value>,
}

/// The kind of an object's event, and what tells it from others of its kind.
#[derive(Clone, Copy, Debug)]
pub(crate) enum EventKind<'a> {
    /// A suite starts.
    SuiteStarted,

    /// A suite ends.
    SuiteEnded { failed_verdict: bool },

    /// A test starts.
    TestStarted { name: &'a str },

    /// A test or a benchmark ends.
    TestEnded { name: &'a str, result: TestResult },

    /// A test is slow.
    TestSlow { name: &'a str },

    /// Another line of a test harness.
    Other,
}

/// Returns the value that is kept for a word, after one more member.
fn kept_for<'a>(
    old: Option<&'a Value>,
    word: &str,
    key: &str,
    value: &'a Value,
) -> Option<&'a Value> {
    if key == word { Some(value) } else { old }
}

/// Returns the text of a member.
pub(crate) fn text_of<'a>(value: &'a Value, key: &str) -> Option<&'a str> {
    value.get(key).and_then(Value::as_str)
}

/// Returns the number of a member.
pub(crate) fn number_of(value: &Value, key: &str) -> Option<u64> {
    value.get(key).and_then(Value::as_u64)
}

/// Returns a number of tests, or `None` if it needs more than 32 bits. So no sum of such numbers overflows.
fn count_of(value: &Value, key: &str) -> Option<u64> {
    match number_of(value, key) {
        Some(number) if number <= GREATEST_COUNT => Some(number),
        _ => None,
    }
}

/// Returns the text of a value that is a text.
fn text_in(value: Option<&Value>) -> Option<&str> {
    value.and_then(Value::as_str)
}

/// Returns the text of a value that is a text, unless it is empty.
fn words_in(value: Option<&Value>) -> Option<&str> {
    match text_in(value) {
        Some("") | None => None,
        words => words,
    }
}

impl<'a> Members<'a> {
    /// Returns the members of an object.
    pub(crate) fn of(object: &'a Value) -> Members<'a> {
        let mut members = Members {
            object,
            kind: None,
            event: None,
            name: None,
            stdout: None,
            message: None,
            reason: None,
            time: None,
        };
        if let Some(map) = object.as_object() {
            for (key, value) in map.iter() {
                members = members.with(key.as_str(), value);
            }
        }
        members
    }

    /// Returns the members after the next one of the object, which is kept if its key is one of those above.
    fn with(self, key: &str, value: &'a Value) -> Members<'a> {
        Members {
            object: self.object,
            kind: kept_for(self.kind, "type", key, value),
            event: kept_for(self.event, "event", key, value),
            name: kept_for(self.name, "name", key, value),
            stdout: kept_for(self.stdout, "stdout", key, value),
            message: kept_for(self.message, "message", key, value),
            reason: kept_for(self.reason, "reason", key, value),
            time: kept_for(self.time, "exec_time", key, value),
        }
    }

    /// Returns the text of `type`.
    fn kind(&self) -> Option<&'a str> {
        text_in(self.kind)
    }

    /// Returns the text of `event`.
    fn event_word(&self) -> Option<&'a str> {
        text_in(self.event)
    }

    /// Returns the text of `name`.
    fn name(&self) -> Option<&'a str> {
        text_in(self.name)
    }

    /// Returns the output, the messages and the time of a test.
    fn details(&self, time: Option<u64>) -> TestDetails<'a> {
        TestDetails {
            stdout: text_in(self.stdout),
            message: words_in(self.message),
            reason: words_in(self.reason),
            time,
        }
    }

    /// Returns the time of the object in microseconds. `line` is the line that has the object.
    pub(crate) fn time_in(&self, line: &[u8]) -> Option<u64> {
        if self.time.is_some_and(Value::is_number) {
            exec_time(line)
        } else {
            None
        }
    }

    /// Returns the result of a benchmark, which passed unless it failed.
    fn bench_result(&self) -> TestResult {
        match self.event_word() {
            Some("failed") => TestResult::Failed,
            _ => TestResult::Ok,
        }
    }

    /// Returns the kind of the event of a suite.
    fn suite_kind(&self) -> Option<EventKind<'a>> {
        match self.event_word() {
            Some("started") => Some(EventKind::SuiteStarted),
            Some("ok") => Some(EventKind::SuiteEnded {
                failed_verdict: false,
            }),
            Some("failed") => Some(EventKind::SuiteEnded {
                failed_verdict: true,
            }),
            Some(_) => Some(EventKind::Other),
            None => None,
        }
    }

    /// Returns the kind of the event of a test.
    fn named_kind(&self) -> Option<EventKind<'a>> {
        match (self.name(), self.event_word()) {
            (Some(name), Some(event)) => Some(test_kind(name, event)),
            _ => None,
        }
    }

    /// Returns the kind of the event of a benchmark.
    fn bench_kind(&self) -> Option<EventKind<'a>> {
        match self.name() {
            Some(name) => Some(EventKind::TestEnded {
                name,
                result: self.bench_result(),
            }),
            None => None,
        }
    }

    /// Returns the kind of the event of an object of a type.
    fn typed_kind(&self, kind: &str) -> Option<EventKind<'a>> {
        match kind {
            "report" | "program" | "command" => Some(EventKind::Other),
            "suite" => self.suite_kind(),
            "test" => self.named_kind(),
            "bench" => self.bench_kind(),
            _ => None,
        }
    }

    /// Returns the kind of the event of the object, or `None` if the object is no event.
    pub(crate) fn event_kind(&self) -> Option<EventKind<'a>> {
        match self.kind() {
            Some(kind) => self.typed_kind(kind),
            None => None,
        }
    }

    /// Returns the event of this kind, with a copy of its texts.
    pub(crate) fn content(&self, time: Option<u64>, kind: EventKind<'_>) -> Content {
        let object = self.object;
        match kind {
            EventKind::SuiteStarted => {
                Content::suite_started(key_of(object), count_of(object, "test_count"))
            }
            EventKind::SuiteEnded { failed_verdict } => {
                Content::suite_ended(suite_end_of(object, time, failed_verdict))
            }
            EventKind::TestStarted { name } => Content::test_started(name),
            EventKind::TestEnded {
                name,
                result: outcome,
            } => Content::test_ended(name, outcome, self.details(time)),
            EventKind::TestSlow { name } => Content::TestSlow {
                name: String::from(name),
            },
            EventKind::Other => Content::Other,
        }
    }
}

/// Returns the kind of a test's event.
fn test_kind<'a>(name: &'a str, event: &str) -> EventKind<'a> {
    match event {
        "started" => EventKind::TestStarted { name },
        "ok" => EventKind::TestEnded {
            name,
            result: TestResult::Ok,
        },
        "failed" => EventKind::TestEnded {
            name,
            result: TestResult::Failed,
        },
        "ignored" => EventKind::TestEnded {
            name,
            result: TestResult::Ignored,
        },
        "timeout" => EventKind::TestSlow { name },
        _ => EventKind::Other,
    }
}

/// Returns the key of a suite.
fn key_of(value: &Value) -> Option<SuiteKey<'_>> {
    value.get("nextest").and_then(key_in)
}

/// Returns the key of a suite in the value of `nextest`.
fn key_in(nextest: &Value) -> Option<SuiteKey<'_>> {
    match (text_of(nextest, "crate"), text_of(nextest, "test_binary")) {
        (Some(package), Some(binary)) => Some(SuiteKey {
            package,
            binary,
            stress_index: number_of(nextest, "stress_index"),
        }),
        _ => None,
    }
}

/// Returns the end of a suite.
fn suite_end_of(value: &Value, time: Option<u64>, failed_verdict: bool) -> SuiteEnd<'_> {
    SuiteEnd {
        key: key_of(value),
        failed_verdict,
        passed: count_of(value, "passed"),
        failed: count_of(value, "failed"),
        ignored: count_of(value, "ignored"),
        measured: count_of(value, "measured"),
        time,
    }
}
