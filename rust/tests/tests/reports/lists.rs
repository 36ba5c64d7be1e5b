//! Failed tests in the list and in annotations: how they are sorted, and which of them are one entry.

use crate::reports::{OPTIONS, reported};
use deodarsieve::CancelReason;
use deodarsieve_cli::report::options::Options;
use deodarsieve_cli::report::{Files, Format};
use deodarsieve_tests::reports::{new_report, read_files};
use serde_json::{Value, json};

/// Returns the lines of a suite of failed tests, each with these members.
fn suite_of(name: &str, tests: &[(&str, Value)]) -> String {
    let key = json!({"crate": name, "test_binary": "t", "kind": "test"});
    let line = |kind: &str, event: &str| json!({"type": kind, "event": event});
    let mut start = line("suite", "started");
    start["test_count"] = tests.len().into();
    start["nextest"] = key.clone();
    let mut lines = format!("{start}\n");
    for (test, members) in tests {
        for mut line in [line("test", "started"), line("test", "failed")] {
            line["name"] = format!("{name}::t${test}").into();
            if line["event"] == "failed" {
                let members = members.as_object().expect("they are members");
                let line = line.as_object_mut().expect("it is an object");
                line.extend(members.clone());
            }
            lines += &format!("{line}\n");
        }
    }
    let mut end = line("suite", "failed");
    end["nextest"] = key;
    lines + &format!("{end}\n")
}

/// Returns the list of the text of a run.
fn list_of(run: &str) -> String {
    let (text, _) = reported(OPTIONS, Format::Text, &[run]);
    let mut parts = text.split("------------\n");
    let list = parts.nth(1).expect("the text has a list");
    let (list, _) = list
        .trim_end()
        .rsplit_once('\n')
        .expect("the numbers follow");
    format!("{list}\n")
}

/// Returns the annotations of the failed tests of a run.
fn annotations_of(run: &str, annotations: Options) -> String {
    let (text, _) = reported(OPTIONS, Format::Github { annotations }, &[run]);
    let (failures, _) = text.split_once("::notice::").expect("there is a notice");
    failures.to_string()
}

/// Returns a panic of a thread at this column.
fn panic_of(thread: &str, column: u32) -> Value {
    let head = format!("thread '{thread}' (7) panicked at src/lib.rs:9:{column}:");
    json!({"stdout": format!("{head}\nconnection refused\n")})
}

#[test]
fn failed_tests_are_sorted_by_suite_and_name() {
    let alone = "{\"type\":\"test\",\"event\":\"failed\",\"name\":\"z\",\"message\":\"0\"}\n";
    let run = [
        suite_of(
            "b",
            &[
                ("z", json!({"message": "1"})),
                ("a", json!({"message": "2"})),
            ],
        ),
        alone.to_string(),
        suite_of(
            "a",
            &[
                ("m2", json!({"message": "3"})),
                ("m10", json!({"message": "4"})),
            ],
        ),
    ];
    let list = "        FAIL z: 0\n        \
        FAIL a::t m10: 4\n        \
        FAIL a::t m2: 3\n        \
        FAIL b::t a: 2\n        \
        FAIL b::t z: 1\n       \
        ERROR z ended failed, and had not started\n";
    assert_eq!(list_of(&run.concat()), list);
}

/// A run whose tests fail with the same place and reason, or with one of them alone.
fn alike() -> String {
    let limit = json!({"reason": "time limit exceeded", "exec_time": 2.5});
    suite_of(
        "b",
        &[
            ("z", panic_of("z", 32)),
            ("y", json!({"message": "other"})),
            ("v", json!({"message": "timed out after 2.500s"})),
            ("u", limit),
        ],
    ) + &suite_of(
        "a",
        &[
            ("q", panic_of("q", 32)),
            ("p", panic_of("p", 33)),
            ("k", json!({"message": "connection refused"})),
        ],
    )
}

#[test]
fn tests_that_failed_alike_are_one_entry_where_the_first_of_them_is() {
    let list = "        FAIL a::t k: connection refused\n        \
        FAIL src/lib.rs:9:33: a::t p: connection refused\n        \
        FAIL 2 tests: src/lib.rs:9:32: connection refused\n             \
        a::t q\n             \
        b::t z\n     \
        TIMEOUT b::t u: timed out after 2.500s\n        \
        FAIL b::t v: timed out after 2.500s\n        \
        FAIL b::t y: other\n";
    assert_eq!(list_of(&alike()), list);
}

#[test]
fn tests_that_failed_alike_have_one_annotation() {
    let wanted = "\
::error file=src/lib.rs,line=9,col=32,title=2 tests%3A src/lib.rs%3A9%3A32%3A connection refused::\
2 tests: src/lib.rs:9:32: connection refused%0Ab::t z%0Aa::t q%0A\
thread 'z' (7) panicked at src/lib.rs:9:32:%0Aconnection refused
::error title=b%3A%3At y::b::t y%0Aother
::error title=b%3A%3At v::b::t v%0Atimed out after 2.500s
::error title=b%3A%3At u::b::t u%0Atimed out after 2.500s
::error file=src/lib.rs,line=9,col=33,title=a%3A%3At p::\
a::t p%0Athread 'p' (7) panicked at src/lib.rs:9:33:%0Aconnection refused
::error title=a%3A%3At k::a::t k%0Aconnection refused
";
    assert_eq!(annotations_of(&alike(), OPTIONS), wanted);
}

#[test]
fn the_names_in_an_annotation_have_a_limit() {
    let tests = ["a", "b", "c", "d"].map(|name| (name, json!({"message": "why"})));
    let annotations = |limit| annotations_of(&suite_of("s", &tests), Options { limit, ..OPTIONS });
    let of_names = |names| format!("::error title=4 tests%3A why::4 tests: why%0A{names}%0Awhy\n");
    // Four names and three line feeds are 27 bytes. Half of 25 holds one name.
    let all = "s::t a%0As::t b%0As::t c%0As::t d";
    assert_eq!(annotations(27), of_names(all));
    assert_eq!(annotations(25), of_names("s::t a%0A(2 lines)%0As::t d"));
}

#[test]
fn tests_of_one_name_are_all_in_their_group() {
    let why = json!({"message": "why"});
    let run =
        suite_of("a", &[("x", why.clone()), ("x", why.clone())]) + &suite_of("b", &[("x", why)]);
    let list = "        FAIL 3 tests: why\n             a::t x\n             a::t x\n             b::t x\n";
    assert_eq!(list_of(&run), list);
}

#[test]
fn a_tab_in_a_reason_is_a_space_unless_the_text_is_raw() {
    let run = suite_of("a", &[("x", json!({"message": "one\ttwo"}))]);
    assert_eq!(list_of(&run), "        FAIL a::t x: one two\n");
    let raw = Options {
        raw: true,
        ..OPTIONS
    };
    let (text, _) = reported(raw, Format::Text, &[&run]);
    assert!(text.contains("        FAIL a::t x: one\ttwo\n"), "{text}");
}

#[test]
fn tests_that_were_stopped_come_after_failed_tests_and_before_contradictions() {
    let lines = r#"{"type":"suite","event":"started","test_count":2}
{"type":"test","event":"ok","name":"stray"}
{"type":"test","event":"started","name":"a"}
{"type":"test","event":"started","name":"z"}
{"type":"test","event":"failed","name":"z","message":"why"}"#;
    let mut report = new_report(OPTIONS, Format::Text, Files::default());
    let mut written = Vec::new();
    read_files(&mut report, &[lines], &mut written).expect("the numbers fit");
    report.cancel(CancelReason::Interrupt);
    report.finish(None, &mut written).expect("the report ends");
    let text = String::from_utf8(written).expect("the report is UTF-8");
    let list = "------------\n        \
        FAIL suite 1 z: why\n     \
        STOPPED suite 1 a\n       \
        ERROR stray ended ok, and had not started\n\
        1 failed, 1 error, 1 not run\n";
    assert!(text.contains(list), "{text}");
}
