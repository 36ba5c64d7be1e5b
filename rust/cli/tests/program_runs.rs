//! How the forms show what lines of programs, and of the command that runs them, say.

use crate::common::{Folder, end_of_text, run, start, wait_for};
use std::fs;
use std::io::{Read, Write};

/// The first line of a run.
const STARTED: &str = r#"{"type":"command","event":"started"}
"#;

/// A program starts, and its suite.
const LEDGER: &str = r#"{"type":"program","event":"started","name":"ledger"}
{"type":"suite","event":"started","test_count":3}
{"type":"test","event":"started","name":"adds"}
{"type":"test","event":"started","name":"parses"}
"#;

/// A test of it has run for a minute.
const SLOW: &str = r#"{"type":"test","event":"timeout","name":"parses"}
"#;

/// A program that passes.
const PASSING: &str = r#"{"type":"program","event":"started","name":"bank"}
{"type":"suite","event":"started","test_count":1}
{"type":"test","event":"started","name":"pays"}
{"type":"test","event":"ok","name":"pays"}
{"type":"suite","event":"ok","passed":1,"failed":0}
"#;

/// A program whose suite has no last line.
const BEGUN: &str = r#"{"type":"program","event":"started","name":"bank"}
{"type":"suite","event":"started","test_count":1}
{"type":"test","event":"started","name":"pays"}
{"type":"test","event":"ok","name":"pays"}
"#;

/// The command ended as cargo does if a test program fails.
const FAILED: &str = r#"{"type":"command","event":"ended","status":101}
"#;

/// The command ended with status 0.
const PASSED: &str = r#"{"type":"command","event":"ended","status":0}
"#;

/// Ctrl-C was taken.
const CANCELLED: &str = r#"{"type":"command","event":"cancelled","cancelled":"Interrupt"}
"#;

/// Returns the line of a program that ended: `how` is a member, such as `"status":1`.
fn ended(how: &str, stderr: &str) -> String {
    let stderr = stderr.replace('\n', "\\n");
    format!("{{\"type\":\"program\",\"event\":\"ended\",{how},\"stderr\":\"{stderr}\"}}\n")
}

/// Returns the report of a run in a form.
fn report(form: &str, parts: &[&str]) -> String {
    let output = run(
        "test-report",
        &["--format", form, "--others", "never"],
        parts.concat().as_bytes(),
    );
    String::from_utf8(output.stdout).expect("the report is UTF-8")
}

/// Asserts the lines of the text before its end, the list and the numbers there, and the outcome.
fn assert_text(parts: &[&str], lines: &str, [list, numbers, outcome]: [&str; 3]) {
    let text = report("text", parts);
    let (_, end) = text.split_once("     Summary ").expect("it has a summary");
    let (summary, _) = end.split_once('\n').expect("the summary is a line");
    let end = end_of_text(list, numbers, summary, outcome);
    assert_eq!(text, [lines, &end].concat());
}

/// Asserts that a contradiction has this line in each form, and the numbers of the text.
fn assert_contradiction(parts: &[&str], line: &str, numbers: &str) {
    let in_list = format!("       ERROR {line}\n");
    assert_text(parts, &format!("{line}\n"), [&in_list, numbers, "failed"]);
    let github = report("github", parts);
    assert!(github.contains(&format!("::error::{line}\n")), "{github}");
    let xml = line.replace('"', "&quot;");
    let junit = report("junit", parts);
    let error = format!("<error message=\"{xml}\" type=\"disagreement\">{xml}</error>");
    assert!(junit.contains(&error), "{junit}");
    let html = report("html", parts);
    assert!(html.contains(line), "{html}");
    let markdown = report("markdown", parts).replace("&#45;", "-");
    assert!(markdown.contains(&format!("- {line}\n")), "{markdown}");
    let json: serde_json::Value = serde_json::from_str(&report("json", parts)).expect("it is JSON");
    let problem = serde_json::json!({"kind": "disagreement", "line": line});
    let problems = json["problems"].as_array().expect("it is a list");
    let has_line = |found: &&serde_json::Value| found["line"] == problem["line"];
    let found = problems.iter().find(has_line).expect("it has the problem");
    assert_eq!(found["kind"], "disagreement");
    assert_eq!(report("names", parts), "");
}

#[test]
fn the_end_of_a_program_that_nothing_explains_is_a_contradiction_in_each_form() {
    for (how, line) in [
        ("\"status\":3", "bank ended with status 3"),
        (
            "\"status\":-1073741819",
            "bank ended with status -1073741819",
        ),
        ("\"signal\":11", "bank ended by signal 11"),
    ] {
        let parts = [STARTED, PASSING, &ended(how, ""), FAILED];
        assert_contradiction(&parts, line, "1 error, 1 passed");
    }
}

#[test]
fn a_program_that_ran_no_tests_or_did_not_end_is_a_contradiction_in_each_form() {
    let none = r#"{"type":"program","event":"started","name":"ledger::t"}
"#;
    let parts = [STARTED, none, &ended("\"status\":0", ""), PASSED];
    assert_contradiction(&parts, "ledger::t ended and ran no tests", "1 error");
    let numbers = "1 error, 1 passed";
    let parts = [STARTED, PASSING, PASSED];
    assert_contradiction(&parts, "bank did not end", numbers);
    let (passed, stray) = (ended("\"status\":0", ""), ended("\"status\":3", ""));
    let parts = [STARTED, PASSING, &passed, &stray, FAILED];
    let line = "a program ended that had not started: status 3";
    assert_contradiction(&parts, line, numbers);
    let parts = [
        STARTED,
        PASSING,
        &passed,
        &ended("\"signal\":6", ""),
        FAILED,
    ];
    let line = "a program ended that had not started: signal 6";
    assert_contradiction(&parts, line, numbers);
    let parts = [STARTED, PASSING, &passed];
    let line = "the run was cut off: no line says how its command ended";
    assert_contradiction(&parts, line, numbers);
}

#[test]
fn a_suite_that_ended_early_has_the_end_of_its_program() {
    let numbers = "1 error, 1 passed";
    for (how, end) in [
        ("\"signal\":11", "by signal 11"),
        ("\"status\":0", "with status 0"),
    ] {
        let parts = [STARTED, BEGUN, &ended(how, ""), FAILED];
        assert_contradiction(&parts, &format!("bank ended early, {end}"), numbers);
    }
    assert_contradiction(&[STARTED, BEGUN, FAILED], "bank ended early", numbers);
}

#[test]
fn a_crash_says_how_its_program_ended_and_which_tests_only_ran() {
    let stderr = "log\n\nthread 'parses' (7) has overflowed its stack\nfatal runtime error: stack overflow\n";
    let parts = [STARTED, LEDGER, &ended("\"signal\":6", stderr), FAILED];
    let lines = "\
CRASH ledger parses
    its process ended before it did
    signal: 6, SIGABRT
    log
    thread 'parses' (7) has overflowed its stack
    fatal runtime error: stack overflow
ledger: 2 of 3 tests were not run
    adds ran when ledger ended
";
    let list = "       CRASH ledger parses: its process ended before it did (signal: 6, SIGABRT)\n";
    let numbers = "1 failed (1 crashed), 2 not run";
    assert_text(&parts, lines, [list, numbers, "failed"]);
    assert_eq!(report("names", &parts), "parses\n");
    let json = report("json", &parts);
    assert!(
        json.contains("\"why\":\"adds ran when ledger ended\""),
        "{json}"
    );
    assert!(json.contains("\"result\":\"stopped\""), "{json}");
    let junit = report("junit", &parts);
    for part in [
        "<testcase name=\"adds\" classname=\"ledger\">\n<skipped message=\"ran when ledger ended\"/>\n</testcase>",
        "type=\"not run\">adds ran when ledger ended</error>",
        "<error message=\"its process ended before it did (signal: 6, SIGABRT)\" type=\"crashed\">",
    ] {
        assert!(junit.contains(part), "{part} in {junit}");
    }
    assert!(report("html", &parts).contains("adds ran when ledger ended"));
    let markdown = report("markdown", &parts);
    assert!(
        markdown.contains("<pre>\nadds ran when ledger ended</pre>"),
        "{markdown}"
    );
    let github = report("github", &parts);
    let line = "::error::ledger: 2 of 3 tests were not run%0Aadds ran when ledger ended\n";
    assert!(github.contains(line), "{github}");
    // A status that is not that of a failed test explains nothing, but ended the tests.
    let parts = [STARTED, LEDGER, &ended("\"status\":7", ""), FAILED];
    let text = report("text", &parts);
    let listed = "\
       CRASH 2 tests: one of 2 tests that ran when its process ended (status 7)
             ledger adds
             ledger parses
";
    assert!(text.contains(listed), "{text}");
}

#[test]
fn a_panic_that_ended_a_program_is_in_the_short_reason_after_its_end() {
    let stderr = "thread 'adds' (7) panicked at src/lib.rs:1:2:\nlost\nthread caused non-unwinding panic. aborting.\n";
    let parts = [STARTED, LEDGER, &ended("\"signal\":6", stderr), FAILED];
    let text = report("text", &parts);
    let listed = "       CRASH src/lib.rs:1:2: ledger adds: its process ended before it did (signal: 6, SIGABRT): lost\n";
    assert!(text.contains(listed), "{text}");
}

#[test]
fn a_cancelled_run_lists_the_tests_that_were_stopped_and_says_so_once() {
    let parts = [
        STARTED,
        LEDGER,
        CANCELLED,
        &ended("\"signal\":2", ""),
        r#"{"type":"command","event":"ended","signal":2}"#,
    ];
    let lines = "ledger: 3 of 3 tests were not run\nthe run was cancelled (Interrupt)\n";
    let list = "     STOPPED ledger adds\n     STOPPED ledger parses\n";
    assert_text(&parts, lines, [list, "3 not run", "cancelled"]);
    assert_eq!(report("names", &parts), "");
    let line = "the run was cancelled (Interrupt)";
    let github = report("github", &parts);
    let wanted = format!(
        "::error::ledger: 3 of 3 tests were not run%0Aadds was stopped%0Aparses was stopped\n::error::{line}\n"
    );
    assert!(github.starts_with(&wanted), "{github}");
    assert!(github.ends_with(", outcome cancelled\n"), "{github}");
    for form in ["text", "github", "junit", "html", "json"] {
        let report = report(form, &parts);
        let name = format!("name=\"{line}\"");
        let counted = if form == "junit" { name.as_str() } else { line };
        assert_eq!(report.matches(counted).count(), 1, "{report}");
        assert!(
            !report.contains("ended early") && !report.contains("by signal"),
            "{report}"
        );
        assert!(!report.contains("CRASH"), "{report}");
    }
    let junit = report("junit", &parts);
    for part in [
        "tests=\"4\" failures=\"0\" errors=\"2\"",
        "<skipped message=\"was stopped\"/>",
        "<error message=\"the run was cancelled (Interrupt)\" type=\"cancelled\">the run was cancelled (Interrupt)</error>",
    ] {
        assert!(junit.contains(part), "{part} in {junit}");
    }
    let json = report("json", &parts);
    let problem = r#"{"kind":"cancelled","line":"the run was cancelled (Interrupt)"}"#;
    assert!(json.contains(problem), "{json}");
}

#[test]
fn a_run_that_was_cancelled_is_what_it_is_without_that_if_something_failed_or_all_passed() {
    // Something failed before. The text says both.
    let failed = PASSING
        .replace("\"ok\",\"name\"", "\"failed\",\"name\"")
        .replace(
            "\"ok\",\"passed\":1,\"failed\":0",
            "\"failed\",\"passed\":0,\"failed\":1",
        );
    let parts = [
        STARTED,
        &failed,
        &ended("\"status\":101", ""),
        LEDGER,
        CANCELLED,
        &ended("\"signal\":2", ""),
        FAILED,
    ];
    let lines = "\
FAIL bank pays
    no output was captured
ledger: 3 of 3 tests were not run
the run was cancelled (Interrupt)
";
    let list = "        FAIL bank pays: no output was captured\n     STOPPED ledger adds\n     STOPPED ledger parses\n";
    assert_text(&parts, lines, [list, "1 failed, 3 not run", "failed"]);
    // Documents do not count it as one more error.
    for form in ["github", "junit", "html", "markdown", "json"] {
        let report = report(form, &parts);
        assert!(!report.contains("the run was cancelled"), "{report}");
    }
    // It failed, and nothing was left to cancel.
    let parts = [
        STARTED,
        &failed,
        CANCELLED,
        &ended("\"status\":101", ""),
        FAILED,
    ];
    let lines = "FAIL bank pays\n    no output was captured\n";
    let list = "        FAIL bank pays: no output was captured\n";
    assert_text(&parts, lines, [list, "1 failed", "failed"]);
    // It failed, and the command ended before its next program started.
    let parts = [
        STARTED,
        &failed,
        CANCELLED,
        &ended("\"status\":101", ""),
        r#"{"type":"command","event":"ended","signal":2}"#,
    ];
    let lines = [lines, "the run was cancelled (Interrupt)\n"].concat();
    assert_text(&parts, &lines, [list, "1 failed", "failed"]);
    // All passed, and the command ended with status 0.
    let parts = [
        STARTED,
        PASSING,
        CANCELLED,
        &ended("\"status\":0", ""),
        PASSED,
    ];
    assert_text(&parts, "", ["", "1 passed", "success"]);
    let output = run(
        "test-report",
        &["--others", "never"],
        parts.concat().as_bytes(),
    );
    assert_eq!(output.status.code(), Some(0));
}

#[test]
fn a_cancelled_run_has_status_1_even_if_no_tests_may_pass() {
    let parts = [STARTED, CANCELLED, FAILED].concat();
    for options in [&["--no-tests", "pass"][..], &[]] {
        let output = run("test-report", options, parts.as_bytes());
        assert_eq!(output.status.code(), Some(1));
        let text = String::from_utf8_lossy(&output.stdout);
        assert!(
            text.starts_with("the run was cancelled (Interrupt)\nno test ran\n---"),
            "{text}"
        );
        assert!(text.ends_with("outcome cancelled\n"), "{text}");
    }
}

#[test]
fn tests_that_were_stopped_are_not_in_a_list_without_failed_tests() {
    let parts = [
        STARTED,
        LEDGER,
        CANCELLED,
        &ended("\"signal\":2", ""),
        FAILED,
    ];
    let options = ["--final-status-level", "none", "--others", "never"];
    let output = run("test-report", &options, parts.concat().as_bytes());
    assert!(!String::from_utf8_lossy(&output.stdout).contains("STOPPED"));
}

#[test]
fn the_text_says_once_that_a_program_with_its_own_harness_has_no_report() {
    let own = r#"{"type":"program","event":"started","name":"bank::bench/b","harness":false}
"#;
    let passed = ended("\"status\":0", "");
    let line = "bank::bench/b has its own harness, and no report\n";
    assert_text(
        &[
            STARTED, own, &passed, own, &passed, PASSING, &passed, PASSED,
        ],
        line,
        ["", "1 passed", "success"],
    );
    // It is said where another program starts, and at the end of the run.
    for rest in [&[PASSING, &passed, PASSED][..], &[PASSED]] {
        let parts = [&[STARTED, PASSING, &passed, own][..], rest].concat();
        assert!(report("text", &parts).starts_with(line), "{rest:?}");
    }
    // If it writes events, it has a report.
    let (_, suite) = PASSING.split_once('\n').expect("a program starts");
    let parts = [STARTED, own, suite, &passed, PASSED];
    assert_text(&parts, "", ["", "1 passed", "success"]);
    // A run of such programs alone has no tests.
    let parts = [STARTED, own, &passed, PASSED];
    assert_text(&parts, line, ["", "no test ran", "no-tests-run"]);
    for form in ["github", "junit", "html", "markdown", "json", "names"] {
        let report = report(form, &[STARTED, own, &passed, PASSED]);
        assert!(!report.contains("own harness"), "{report}");
    }
    // Where such lines do not count, nobody says so.
    let parts = ["a print\n", own, suite, &passed];
    assert!(!report("text", &parts).contains("own harness"));
}

#[test]
fn a_test_that_has_run_for_a_minute_is_named_if_nothing_shows_progress() {
    let parts = [STARTED, LEDGER, SLOW, &ended("\"signal\":9", ""), FAILED];
    let line = "SLOW [> 60s] ledger parses\n";
    assert!(report("text", &parts).starts_with(line));
    for options in [&["--progress", "always"][..], &["--status-level", "none"]] {
        let output = run("test-report", options, parts.concat().as_bytes());
        assert!(
            !String::from_utf8_lossy(&output.stdout).contains(line),
            "{options:?}"
        );
    }
    // A file without lines of programs is read when all is over.
    let (_, suite) = LEDGER.split_once('\n').expect("a program starts");
    assert!(!report("text", &[suite, SLOW]).contains("SLOW"));
    let command = ["--others", "never", "--", "printf", "%s\\n%s", suite, SLOW];
    let output = run("test-report", &command, b"");
    let text = String::from_utf8_lossy(&output.stdout);
    assert!(text.starts_with("SLOW [> 60s] parses\n"), "{text}");
}

#[test]
fn a_test_that_has_run_for_a_minute_is_named_while_it_runs() {
    let mut running = start(&["--progress", "never"]);
    let lines = [STARTED, LEDGER, SLOW].concat();
    let written = running.stdin.write_all(lines.as_bytes());
    written.expect("the program reads");
    let mut pipe = wait_for(running.stdout, "SLOW [> 60s] ledger parses\n");
    drop(running.stdin);
    let mut rest = String::new();
    pipe.read_to_string(&mut rest).expect("the text is UTF-8");
    assert!(!rest.contains("SLOW [>"), "{rest}");
    running.child.wait().expect("the program ends");
}

#[test]
fn the_panic_of_a_test_without_an_output_is_in_what_its_program_wrote() {
    let (start, rest) = LEDGER
        .split_once("{\"type\":\"test\"")
        .expect("tests start");
    let tests = format!("{start}{{\"type\":\"test\"{rest}").replace("_count\":3", "_count\":2");
    let fail =
        |name: &str| format!("{{\"type\":\"test\",\"event\":\"failed\",\"name\":\"{name}\"}}\n");
    let last = "{\"type\":\"suite\",\"event\":\"failed\",\"passed\":0,\"failed\":2}\n";
    let stderr = "context\n\nthread 'adds' (7) panicked at src/lib.rs:1:2:\nno money\n\nthread 'parses' (8) panicked at src/lib.rs:3:4:\nno text\n";
    let (adds, parses) = (fail("adds"), fail("parses"));
    let parts = [
        STARTED,
        &tests,
        &parses,
        &adds,
        last,
        &ended("\"status\":101", stderr),
        FAILED,
    ];
    let lines = "\
FAIL ledger parses
    thread 'parses' (8) panicked at src/lib.rs:3:4:
    no text
FAIL ledger adds
    thread 'adds' (7) panicked at src/lib.rs:1:2:
    no money
";
    let list = "        FAIL src/lib.rs:1:2: ledger adds: no money\n        FAIL src/lib.rs:3:4: ledger parses: no text\n";
    assert_text(&parts, lines, [list, "2 failed", "failed"]);
    let github = report("github", &parts);
    assert!(github.contains("file=src/lib.rs,line=3,col=4,"), "{github}");
    let junit = report("junit", &parts);
    let suite = "<testsuite name=\"ledger\" tests=\"2\" failures=\"2\" errors=\"0\" skipped=\"0\">";
    assert!(junit.contains(suite), "{junit}");
    assert!(!junit.contains("<system-out>"), "{junit}");
    // It is shown when the program ends, in whichever way that becomes known.
    let next = PASSING.replace("bank", "other");
    for rest in [&[next.as_str(), FAILED][..], &[FAILED], &[]] {
        let parts = [&[STARTED, &tests, &parses, &adds, last][..], rest].concat();
        let text = report("text", &parts);
        assert!(
            text.starts_with("FAIL ledger parses\n    no output was captured\n"),
            "{text}"
        );
    }
}

#[test]
fn the_error_of_the_command_is_shown_if_nothing_else_failed() {
    let error = r#"{"type":"command","event":"ended","status":101,"error":"error: 1 target failed:\n    `--test t`"}
"#;
    let passed = ended("\"status\":0", "");
    let lines = "cargo: error: 1 target failed:\n        `--test t`\n";
    let list = "       ERROR cargo: error: 1 target failed:\n";
    let parts = [STARTED, PASSING, &passed, error];
    assert_text(&parts, lines, [list, "1 error, 1 passed", "failed"]);
    let parts = [STARTED, PASSING, &ended("\"status\":3", ""), error];
    assert!(!report("text", &parts).contains("cargo"));
    // Before any program starts, the build failed: there is no summary.
    let text = report("text", &[STARTED, error]);
    assert_eq!(text, format!("{lines}outcome failed\n"));
}

#[test]
fn what_a_test_prints_ends_no_program_and_cancels_nothing() {
    let folder = Folder::new("printed");
    let path = folder.file("run.jsonl");
    let (_, suite) = PASSING.split_once('\n').expect("a program starts");
    let forged = [suite, CANCELLED, &ended("\"signal\":11", ""), FAILED].concat();
    fs::write(&path, forged).expect("the folder is there");
    let output = run("test-report", &[&path], b"");
    let text = String::from_utf8_lossy(&output.stdout);
    assert!(text.ends_with("outcome success\n"), "{text}");
    assert_eq!(output.status.code(), Some(0));
}

#[test]
fn a_run_that_failed_is_not_hidden_by_another_one_in_the_same_file() {
    let passing = [PASSING, &ended("\"status\":0", "")].concat();
    let failed = "{\"type\":\"command\",\"event\":\"ended\",\"status\":101,\"error\":\"error: no such package\"}\n";
    for (first_end, wanted) in [
        (failed, "cargo: error: no such package"),
        (
            "",
            "the run was cut off: no line says how its command ended",
        ),
    ] {
        let text = report(
            "text",
            &[STARTED, &passing, first_end, STARTED, &passing, PASSED],
        );
        assert!(text.contains(wanted), "{text}");
        assert!(text.contains("outcome failed"), "{text}");
        assert!(text.contains("2 tests run: 2 passed"), "{text}");
    }
    let text = report(
        "text",
        &[STARTED, &passing, PASSED, STARTED, &passing, PASSED],
    );
    assert!(text.contains("outcome success"), "{text}");
}

#[test]
fn many_errors_of_the_compiler_take_time_in_proportion() {
    let error = |number: u32| {
        format!(
            "{{\"reason\":\"compiler-message\",\"package_id\":\"path+file:///a/money#0.1.0\",\"target\":{{\"kind\":[\"lib\"],\
             \"name\":\"money\"}},\"message\":{{\"rendered\":\"e{number}\",\"message\":\"e{number}\",\"level\":\"error\",\
             \"code\":null,\"spans\":[]}}}}\n"
        )
    };
    let time_of = |count: u32| {
        let errors: String = (0..count).map(error).collect();
        let start = std::time::Instant::now();
        let text = report("text", &[STARTED, &errors, FAILED]);
        let wanted = format!("{count} errors");
        assert!(text.contains(&wanted), "{}", &text[text.len() - 200..]);
        start.elapsed()
    };
    // If each error were compared with each other one, eight times as many would take about forty times as long.
    // On a busy machine a single pair of times says little.
    let mut pairs = Vec::new();
    let is_linear = (0..5).any(|_| {
        let (few, many) = (time_of(3_000), time_of(24_000));
        pairs.push((few, many));
        many < 14 * few
    });
    assert!(is_linear, "{pairs:?}");
}

#[test]
fn a_command_that_failed_did_not_end_well_later() {
    let passing = [PASSING, &ended("\"status\":0", "")].concat();
    for (status, other) in [(3, 0), (0, 3), (-5, 0), (0, -5)] {
        let end =
            |status| format!("{{\"type\":\"command\",\"event\":\"ended\",\"status\":{status}}}\n");
        let text = report("text", &[STARTED, &passing, &end(status), &end(other)]);
        let failed = status + other;
        let wanted = format!("the command ended with status {failed}, and no line says why\n");
        assert!(text.starts_with(&wanted), "{text}");
        assert!(text.ends_with("outcome failed\n"), "{text}");
    }
    let text = report("text", &[STARTED, &passing, PASSED, PASSED]);
    assert!(text.contains("outcome success"), "{text}");
}

#[test]
fn a_run_that_was_cancelled_stops_no_test_of_another_run() {
    let folder = Folder::new("cancelled-and-not");
    let (cancelled, crashed) = (folder.file("cancelled.jsonl"), folder.file("crashed.jsonl"));
    let end =
        "{\"type\":\"command\",\"event\":\"ended\",\"signal\":2,\"cancelled\":\"Interrupt\"}\n";
    let aborted = ended("\"signal\":6", "");
    fs::write(&cancelled, [STARTED, LEDGER, CANCELLED, end].concat()).expect("it can be written");
    fs::write(&crashed, [STARTED, LEDGER, &aborted, FAILED].concat()).expect("it can be written");
    let output = run("test-report", &[&cancelled, &crashed], b"");
    let text = String::from_utf8_lossy(&output.stdout);
    assert_eq!(text.matches("\n     STOPPED ledger").count(), 2, "{text}");
    let crashed = "\n       CRASH 2 tests: one of 2 tests that ran when its process ended (signal: 6, SIGABRT)\n             \
        ledger adds\n             ledger parses\n";
    assert!(text.contains(crashed), "{text}");
    assert!(text.ends_with("outcome failed\n"), "{text}");
}

#[test]
fn suites_of_one_name_keep_their_own_tests() {
    let keyless = r#"{"type":"suite","event":"started","test_count":1}
{"type":"test","event":"started","name":"bank::pays$first"}
"#;
    let keyed = r#"{"type":"suite","event":"started","test_count":1,"nextest":{"crate":"bank","test_binary":"pays","kind":"test"}}
{"type":"test","event":"started","name":"bank::pays$second"}
{"type":"test","event":"ok","name":"bank::pays$second"}
{"type":"suite","event":"ok","passed":1,"failed":0,"nextest":{"crate":"bank","test_binary":"pays","kind":"test"}}
"#;
    let end = r#"{"type":"test","event":"failed","name":"bank::pays$first"}
{"type":"suite","event":"failed","passed":0,"failed":1}
"#;
    let json: serde_json::Value =
        serde_json::from_str(&report("json", &[keyless, keyed, end])).expect("it is JSON");
    let names = |suite: &serde_json::Value| -> Vec<String> {
        let tests = suite["tests"].as_array().expect("a suite has tests");
        tests.iter().map(|test| test["name"].to_string()).collect()
    };
    let suites: Vec<_> = json["suites"]
        .as_array()
        .expect("there are suites")
        .iter()
        .map(|suite| {
            (
                suite["name"].to_string(),
                suite["numbers"]["failed"].to_string(),
                names(suite),
            )
        })
        .collect();
    let name = || "\"bank::pays\"".to_string();
    let wanted = [
        (name(), "0".to_string(), vec!["\"second\"".to_string()]),
        (name(), "1".to_string(), vec!["\"first\"".to_string()]),
    ];
    assert_eq!(suites, wanted);
}
