//! What `test-report` writes while its input is open, its line of progress, and how it ends if its reader
//! stops early.

use crate::common::{self, read_until, run, start, wait_for};
use std::io::{Read, Write};
use std::time::{Duration, Instant};

/// The start of a suite and its first failed test.
const FAILED: &str = r#"{ "type": "suite", "event": "started", "test_count": 9 }
{ "type": "test", "event": "started", "name": "adds" }
{ "type": "test", "name": "adds", "event": "failed", "stdout": "Error: no such currency\n" }
"#;

/// The last line of that suite.
const ENDED: &str = r#"{ "type": "suite", "event": "failed", "passed": 0, "failed": 1, "ignored": 0, "measured": 0 }
"#;

/// A suite that does not say how many tests it has, and its first failed test.
const UNKNOWN: &str = r#"{ "type": "suite", "event": "started" }
{ "type": "test", "event": "started", "name": "adds" }
{ "type": "test", "name": "adds", "event": "failed" }
"#;

/// A heading of cargo.
const HEADING: &str = "     Running unittests src/lib.rs (deps/ledger-0123456789abcdef)\n";

/// The start of a test with a control character in its name.
const STARTED: &str = r#"{ "type": "test", "event": "started", "name": "a\u001b[2J" }
"#;

/// The first line of a suite of nextest, a test of it that starts, and the last line of the suite.
const FIRST: &str = r#"{"type":"suite","event":"started","test_count":3,"nextest":{"crate":"ledger","test_binary":"pays"}}
"#;
const RUNNING: &str = r#"{"type":"test","event":"started","name":"ledger::pays$tests::at_once"}
"#;
const RETRIED: &str = r#"{"type":"test","event":"ok","name":"ledger::pays$tests::at_once#2"}
"#;

/// The end of another test, whose name has text that is no number of attempts.
const NOT_RETRIED: &str = r#"{"type":"test","event":"ok","name":"ledger::pays$tests::at_once#x"}
"#;

#[test]
fn a_failure_is_written_while_the_input_is_open() {
    let cases = [
        ("text", FAILED, "FAIL suite 1 adds\n"),
        (
            "github",
            ENDED,
            "::error::a suite ended that had not started: failed\n",
        ),
        ("names", FAILED, "adds\n"),
    ];
    for (form, lines, wanted) in cases {
        let mut running = start(&["--format", form]);
        running
            .stdin
            .write_all(lines.as_bytes())
            .expect("the program reads");
        let (line, mut pipe) = read_until(running.stdout, "\n");
        assert_eq!(line, wanted);
        drop(running.stdin);
        let mut rest = String::new();
        pipe.read_to_string(&mut rest).expect("the text is UTF-8");
        let status = running.child.wait().expect("the program ends");
        assert_eq!(status.code(), Some(1), "{form}: {rest}");
        let whole = run("test-report", &["--format", form], lines.as_bytes());
        assert_eq!((line + &rest).as_bytes(), whole.stdout, "{form}");
    }
}

#[test]
fn a_reader_that_stops_early_ends_the_program_quietly() {
    for form in ["text", "github", "names"] {
        let mut running = start(&["--format", form]);
        running
            .stdin
            .write_all([FAILED, ENDED].concat().as_bytes())
            .expect("the program reads");
        drop(wait_for(running.stdout, "\n"));
        // The write of the next failure fails, and then nobody reads this pipe.
        while running
            .stdin
            .write_all([FAILED, ENDED].concat().as_bytes())
            .is_ok()
        {}
        drop(running.stdin);
        let mut message = String::new();
        running
            .stderr
            .read_to_string(&mut message)
            .expect("the text is UTF-8");
        let status = running.child.wait().expect("the program ends");
        assert_eq!((status.code(), message.as_str()), (Some(3), ""), "{form}");
    }
}

/// The line of progress, as it is written.
fn drawn(text: &str) -> String {
    format!("\r\u{1b}[K\u{1b}[?7l{text}\u{1b}[?7h")
}

/// What takes the line of progress away.
const HIDDEN: &str = "\r\u{1b}[K";

/// Returns a text without the seconds of lines of progress.
fn without_seconds(text: &str) -> String {
    (1..60).fold(text.to_string(), |text, seconds| {
        text.replace(&format!(" ({seconds} s)"), "")
    })
}

#[test]
fn the_line_of_progress_is_gone_at_the_end() {
    let cases = [
        ("".to_string(), None),
        ("{}\n".to_string(), None),
        (FAILED.to_string(), Some("1 of 9 tests, 1 failed")),
        (
            [FAILED, STARTED].concat(),
            Some("1 of 9 tests, 1 failed: suite 1 a\\u{1b}[2J"),
        ),
        (
            [HEADING, FAILED, STARTED].concat(),
            Some("1 of 9 tests, 1 failed: ledger (unittests src/lib.rs) a\\u{1b}[2J"),
        ),
        (
            [FIRST, RUNNING].concat(),
            Some("0 of 3 tests, 0 failed: ledger::pays tests::at_once"),
        ),
        (
            [FIRST, RUNNING, RETRIED].concat(),
            Some("1 of 3 tests, 0 failed"),
        ),
        (
            [FIRST, RUNNING, NOT_RETRIED].concat(),
            Some("0 of 3 tests, 0 failed: ledger::pays tests::at_once"),
        ),
        (
            [FIRST, RUNNING, FAILED, STARTED].concat(),
            Some("1 of 12 tests, 1 failed: ledger::pays tests::at_once"),
        ),
        ([FAILED, ENDED].concat(), Some("1 of 9 tests, 1 failed")),
        (
            [FAILED, ENDED, FAILED].concat(),
            Some("2 of 18 tests, 2 failed"),
        ),
        (
            [FAILED, STARTED, FAILED].concat(),
            Some("3 of 18 tests, 3 failed"),
        ),
        (UNKNOWN.to_string(), Some("1 tests, 1 failed")),
        (RETRIED.to_string(), None),
    ];
    for (input, wanted) in cases {
        for form in ["text", "names", "junit"] {
            let arguments = ["--progress=always", "--others=never", "--format", form];
            let output = run("test-report", &arguments, input.as_bytes());
            let shown = String::from_utf8_lossy(&output.stderr).into_owned();
            assert_eq!(output.status.code(), Some(1), "{input}");
            let line = wanted.map(drawn).unwrap_or_default();
            // On a slow machine the line is written again, once a second.
            let shown = without_seconds(&shown);
            let first = shown.trim_start_matches(line.as_str());
            let end = if line.is_empty() { "" } else { HIDDEN };
            assert!(shown.starts_with(&line), "{input}: {shown:?}");
            assert_eq!(first, end, "{input}: {shown:?}");
        }
    }
}

#[cfg(target_os = "linux")]
#[test]
fn it_is_said_that_a_terminal_is_read_if_nobody_has_asked_for_that() {
    use common::{Folder, as_user, path_of};
    use std::{fs, process::Command};
    let folder = Folder::new("terminal");
    folder.write(&[("run.jsonl", [FAILED, ENDED].concat().as_str())]);
    let message = "test-report: reading standard input; to run tests: test-report -- cargo test\n";
    for (arguments, wanted) in [
        ("", message),
        ("--format names", message),
        ("-", ""),
        ("run.jsonl", ""),
        ("-- true", ""),
        ("<run.jsonl", ""),
    ] {
        let words = format!("'{}' {arguments} 2>errors", path_of("test-report"));
        let mut script = Command::new("script");
        script.args(["--quiet", "--return", "--command", &words, "/dev/null"]);
        // The end of the standard input of `script` is the end of what its terminal gives.
        let output = as_user(&mut script, &folder.0).output();
        let status = output.expect("the program runs").status;
        assert_eq!(status.code(), Some(1), "{arguments}");
        let errors = fs::read_to_string(folder.file("errors"));
        assert_eq!(errors.expect("it is there"), wanted, "{arguments}");
    }
}

/// Returns the lines of a suite of 41 tests. All but the last one end at once.
fn forty_tests() -> String {
    let mut lines =
        "{ \"type\": \"suite\", \"event\": \"started\", \"test_count\": 41 }\n".to_string();
    for number in 0..=40 {
        lines += &format!(
            "{{ \"type\": \"test\", \"event\": \"started\", \"name\": \"case_{number}\" }}\n"
        );
    }
    for number in 0..40 {
        lines +=
            &format!("{{ \"type\": \"test\", \"event\": \"ok\", \"name\": \"case_{number}\" }}\n");
    }
    lines
}

#[test]
fn the_line_of_progress_shows_the_last_change_while_no_line_comes() {
    let mut running = start(&["--progress", "always"]);
    for line in forty_tests().lines() {
        running
            .stdin
            .write_all(format!("{line}\n").as_bytes())
            .expect("the program reads");
    }
    let line = "40 of 41 tests, 0 failed: suite 1 case_40";
    let (start, stderr) = (Instant::now(), wait_for(running.stderr, &drawn(line)));
    let stderr = wait_for(stderr, &drawn(&format!("{line} (1 s)")));
    // The line comes at once, and then once a second.
    assert!(
        start.elapsed() > Duration::from_millis(500),
        "{:?}",
        start.elapsed()
    );
    drop((running.stdin, stderr));
    running.child.wait().expect("the program ends");
}

#[test]
fn the_line_of_progress_is_shown_again_after_a_text() {
    let mut running = start(&["--progress", "always"]);
    running
        .stdin
        .write_all([FIRST, RUNNING].concat().as_bytes())
        .expect("the program reads");
    let stderr = wait_for(
        running.stderr,
        &drawn("0 of 3 tests, 0 failed: ledger::pays tests::at_once"),
    );
    running
        .stdin
        .write_all(FAILED.as_bytes())
        .expect("the program reads");
    let again = drawn("1 of 12 tests, 1 failed: ledger::pays tests::at_once");
    let stderr = wait_for(stderr, &[HIDDEN, &again].concat());
    drop((running.stdin, stderr));
    running.child.wait().expect("the program ends");
}

#[test]
fn the_line_of_progress_shows_the_test_that_has_been_running_longest() {
    let mut running = start(&["--progress", "always"]);
    let mut write = |line: &str| {
        running
            .stdin
            .write_all(line.as_bytes())
            .expect("the program reads");
    };
    write("{ \"type\": \"suite\", \"event\": \"started\", \"test_count\": 2 }\n");
    write("{ \"type\": \"test\", \"event\": \"started\", \"name\": \"first\" }\n");
    let stderr = wait_for(
        running.stderr,
        &drawn("0 of 2 tests, 0 failed: suite 1 first (1 s)"),
    );
    write("{ \"type\": \"test\", \"event\": \"started\", \"name\": \"second\" }\n");
    let stderr = wait_for(
        stderr,
        &drawn("0 of 2 tests, 0 failed: suite 1 first (2 s)"),
    );
    write("{ \"type\": \"test\", \"event\": \"ok\", \"name\": \"first\" }\n");
    let stderr = wait_for(stderr, "1 of 2 tests, 0 failed: suite 1 second");
    let stderr = wait_for(
        stderr,
        &drawn("1 of 2 tests, 0 failed: suite 1 second (2 s)"),
    );
    drop((running.stdin, stderr));
    running.child.wait().expect("the program ends");
}
