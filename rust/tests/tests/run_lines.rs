//! Lines of a run, and the events that they are.

use deodarsieve_run::{Event, Line, SuiteKey};

#[test]
fn lines_are_events() {
    let rows: [(&str, Event<'_>); 7] = [
        (
            r#"{"type":"suite","event":"started","nextest":{"crate":"a","test_binary":"b","stress_index":2}}"#,
            Event::SuiteStarted {
                key: Some(SuiteKey {
                    package: "a",
                    binary: "b",
                    stress_index: Some(2),
                }),
                test_count: None,
            },
        ),
        (
            r#"{"type":"test","event":"started","name":"c"}"#,
            Event::TestStarted { name: "c" },
        ),
        (
            r#"{"type":"test","event":"timeout","name":"c"}"#,
            Event::TestSlow { name: "c" },
        ),
        (
            r#"{"type":"test","event":"other","name":"c"}"#,
            Event::Other,
        ),
        (
            "     Running unittests src/lib.rs (target/debug/deps/a-0123456789abcdef)",
            Event::Heading {
                suite: "a (unittests src/lib.rs)",
                path: Some("target/debug/deps/a-0123456789abcdef"),
            },
        ),
        (
            "   Doc-tests a",
            Event::Heading {
                suite: "a (doc tests)",
                path: None,
            },
        ),
        (
            " a print\r",
            Event::Print {
                line: " a print",
                plain: " a print",
            },
        ),
    ];
    for (bytes, wanted) in rows {
        let line = Line::read(bytes.as_bytes());
        assert_eq!(line.event(), wanted, "{bytes}");
    }
}

#[test]
fn lines_have_several_events() {
    let printed = "printed     Running unittests src/lib.rs (target/debug/deps/a-0123456789abcdef)";
    let heading = Line::read(printed.as_bytes());
    let before = Event::Print {
        line: "printed",
        plain: "printed",
    };
    assert!(heading.before() == Some(before) && heading.damage().is_none());
    assert!(matches!(heading.event(), Event::Heading { .. }));
    let two = r#"{"type":"test","event":"failed","name":"a"}{"type":"test","event":"started","name":"b"}"#;
    let started = Line::read(two.as_bytes());
    let damage = Event::Damaged {
        text: r#"{"type":"test","event":"failed","name":"a"}"#,
    };
    assert!(started.before().is_none() && started.damage() == Some(damage));
    assert!(started.event() == Event::TestStarted { name: "b" });
}

#[test]
fn keys_have_texts() {
    let plain = SuiteKey {
        package: "a",
        binary: "b",
        stress_index: None,
    };
    let stress = SuiteKey {
        stress_index: Some(1),
        ..plain
    };
    assert_eq!(format!("{plain} {stress}"), "a::b a::b@stress-1");
}
