//! The event of each kind of line.

use deodarsieve_run::{
    CargoFailure, Event, Line, SuiteEnd, SuiteKey, TestDetails, TestResult, TestRun, microseconds,
};

/// Details of a test that has none.
const NO_DETAILS: TestDetails<'_> = TestDetails {
    stdout: None,
    message: None,
    reason: None,
    time: None,
};

/// Asserts that a line is wholly this event.
fn assert_event(line: &str, event: Event<'_>) {
    let line = Line::read(line.as_bytes());
    assert_eq!(line.event(), event);
    assert_eq!(
        (line.before(), line.damage(), line.rest()),
        (None, None, None)
    );
}

#[test]
fn lines_of_suites_are_events() {
    assert_event(
        r#"{ "type": "suite", "event": "started", "test_count": 7 }"#,
        Event::SuiteStarted {
            key: None,
            test_count: Some(7),
        },
    );
    let key = SuiteKey {
        package: "ledger",
        binary: "it",
        stress_index: Some(2),
    };
    assert_event(
        r#"{"type":"suite","event":"failed","passed":3,"failed":2,"ignored":1,"measured":0,"exec_time":30.2451959,"nextest":{"crate":"ledger","test_binary":"it","kind":"test","stress_index":2}}"#,
        Event::SuiteEnded(SuiteEnd {
            key: Some(key),
            failed_verdict: true,
            passed: Some(3),
            failed: Some(2),
            ignored: Some(1),
            measured: Some(0),
            time: Some(30_245_195),
        }),
    );
    assert_eq!(key.to_string(), "ledger::it@stress-2");
    let plain = SuiteKey {
        stress_index: None,
        ..key
    };
    assert_eq!(plain.to_string(), "ledger::it");
}

#[test]
fn lines_of_tests_are_events() {
    assert_event(
        r#"{ "type": "test", "event": "started", "name": "say \"x\"" }"#,
        Event::TestStarted { name: "say \"x\"" },
    );
    assert_event(
        r#"{ "type": "test", "name": "a", "event": "failed", "exec_time": 0.25, "stdout": "o\n", "message": "m", "reason": "r" }"#,
        Event::TestEnded {
            name: "a",
            result: TestResult::Failed,
            details: TestDetails {
                stdout: Some("o\n"),
                message: Some("m"),
                reason: Some("r"),
                time: Some(250_000),
            },
        },
    );
    for (word, result) in [("ok", TestResult::Ok), ("ignored", TestResult::Ignored)] {
        assert_event(
            &format!(r#"{{"type":"test","event":"{word}","name":"a#2"}}"#),
            Event::TestEnded {
                name: "a#2",
                result,
                details: NO_DETAILS,
            },
        );
    }
    assert_event(
        r#"{"type":"test","event":"timeout","name":"a"}"#,
        Event::TestSlow { name: "a" },
    );
    assert_event(
        r#"{ "type": "bench", "name": "a", "median": 0.9, "deviation": 0.2 }"#,
        Event::TestEnded {
            name: "a",
            result: TestResult::Ok,
            details: NO_DETAILS,
        },
    );
    assert_event(r#"{ "type": "report", "total_time": 0.3 }"#, Event::Other);
}

#[test]
fn lines_of_cargo_are_headings_failures_and_prints() {
    for (text, event) in [
        (
            "     Running tests/it.rs (target/debug/deps/it-0123456789abcdef)",
            Event::Heading {
                suite: "it (tests/it.rs)",
                path: Some("target/debug/deps/it-0123456789abcdef"),
            },
        ),
        (
            "   Doc-tests ledger",
            Event::Heading {
                suite: "ledger (doc tests)",
                path: None,
            },
        ),
        (
            "error: could not compile `a` (lib)",
            Event::CargoFailed {
                failure: CargoFailure::Build,
                line: "error: could not compile `a` (lib)",
                plain: "error: could not compile `a` (lib)",
            },
        ),
        (
            "\u{1b}[1merror\u{1b}[0m: test failed",
            Event::CargoFailed {
                failure: CargoFailure::Tests,
                line: "\u{1b}[1merror\u{1b}[0m: test failed",
                plain: "error: test failed",
            },
        ),
        (
            "error: 2 targets failed:",
            Event::CargoFailed {
                failure: CargoFailure::Run,
                line: "error: 2 targets failed:",
                plain: "error: 2 targets failed:",
            },
        ),
        (
            "  hello\r",
            Event::Print {
                line: "  hello",
                plain: "  hello",
            },
        ),
    ] {
        let line = Line::read(text.as_bytes());
        assert_eq!(line.event(), event);
        assert_eq!((line.before(), line.damage()), (None, None));
        assert_eq!(line.rest(), Some(text.len()));
    }
}

#[test]
fn text_in_front_of_an_event_is_the_rest_of_the_line() {
    let line = Line::read(br#"progress 10%{ "type": "test", "event": "started", "name": "a" }"#);
    assert_eq!(line.event(), Event::TestStarted { name: "a" });
    assert_eq!((line.before(), line.damage()), (None, None));
    assert_eq!(line.rest(), Some("progress 10%".len()));

    let line = Line::read(b"no line feed   Doc-tests ledger");
    let heading = Event::Heading {
        suite: "ledger (doc tests)",
        path: None,
    };
    assert_eq!(line.event(), heading);
    let print = Event::Print {
        line: "no line feed",
        plain: "no line feed",
    };
    assert_eq!(line.before(), Some(print));
}

#[test]
fn a_damaged_line_that_says_a_failure_is_an_event_of_its_own() {
    let text = r#"{"type":"test","event":"failed","name":"say "x""}"#;
    let line = Line::read(text.as_bytes());
    assert_eq!(line.damage(), Some(Event::Damaged { text }));
    assert_eq!(
        line.event(),
        Event::Print {
            line: text,
            plain: text
        }
    );
    for (kind, is_damaged) in [("suite", true), ("bench", true), ("report", false)] {
        let text = format!(r#"{{ "type" : "{kind}", "event" : "failed""#);
        assert_eq!(
            Line::read(text.as_bytes()).damage().is_some(),
            is_damaged,
            "{text}"
        );
    }
    // Without a word of a failure it is a print only.
    let ok = text.replace("failed", "ok");
    assert_eq!(Line::read(ok.as_bytes()).damage(), None);
}

#[test]
fn any_bytes_are_a_line() {
    let line = Line::read(b"\xff\xfe{\x00");
    assert_eq!(line.rest(), Some(4));
    let Event::Print { line, .. } = line.event() else {
        panic!("the line is a print");
    };
    assert_eq!(line, "\u{fffd}\u{fffd}{\0");
}

#[test]
fn an_event_can_be_taken_without_its_line() {
    let mut by_line = TestRun::new(0);
    let mut by_event = TestRun::new(0);
    for text in [
        "{\"type\":\"test\",\"event\":\"ok\",\"name\":\"a\"}",
        "hello",
    ] {
        let line = Line::read(text.as_bytes());
        let expected = by_line.on_line(&line).expect("the counters have room");
        let notes = by_event
            .on_event(line.event())
            .expect("the counters have room");
        assert_eq!(format!("{notes:?}"), format!("{expected:?}"));
    }
    let end = by_event
        .finish(None, false)
        .expect("the counters have room")
        .end;
    assert_eq!(
        end,
        by_line
            .finish(None, false)
            .expect("the counters have room")
            .end
    );
}

#[test]
fn seconds_are_rounded_down_to_microseconds() {
    for (text, time) in [
        ("60", Some(60_000_000)),
        ("2.5", Some(2_500_000)),
        ("0.0000019", Some(1)),
        ("999999999.9999999", Some(999_999_999_999_999)),
        ("1000000000", None),
        ("1e3", None),
        ("-1", None),
        ("1.", None),
        ("", None),
    ] {
        assert_eq!(microseconds(text.as_bytes()), time, "{text:?}");
    }
}
