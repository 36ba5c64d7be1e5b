//! `--retries`: failed tests that run again, each alone.
#![cfg(unix)]

use crate::common::{self, Folder, as_user, command, run};
use serde_json::{Value, json};
use std::fs;
use std::os::unix::process::CommandExt;
use std::process::{Command, Output};

/// A package whose tests pass or fail by how often they have run.
const PACKAGE: [(&str, &str); 5] = [
    (
        "Cargo.toml",
        "[package]\nname = \"money\"\nversion = \"0.1.0\"\nedition = \"2024\"\n\n[workspace]\n",
    ),
    (
        "src/lib.rs",
        r#"/// Counts a run of a test, and returns how often it has run.
///
/// ```
/// assert!(money::count("documented") > 1);
/// ```
///
/// Rustdoc runs this one in another suite, after the first.
///
/// ```compile_fail
/// money::count(1);
/// ```
pub fn count(test: &str) -> usize {
    use std::io::Write;
    let path = format!("{}/{test}.runs", env!("CARGO_MANIFEST_DIR"));
    let mut file = std::fs::File::options().create(true).append(true).open(&path).unwrap();
    writeln!(file, "{:?}", std::env::args().skip(1).collect::<Vec<_>>()).unwrap();
    std::fs::read_to_string(path).unwrap().lines().count()
}
"#,
    ),
    (
        "tests/some.rs",
        r#"#[test]
fn always_fails() {
    println!("{{ \"type\": \"test\" }} a print");
    panic!("no money {}", money::count("always"));
}

#[test]
fn crashes_later() {
    if money::count("crashes") > 1 {
        std::io::Write::write_all(&mut std::io::stderr(), b"the end\n").unwrap();
        std::process::abort();
    }
    panic!("first");
}

#[test]
fn passes() {
    money::count("passes");
}

#[test]
fn second() {
    assert!(money::count("second") > 1, "not yet");
}

#[test]
fn second_and_more() {
    money::count("more");
}

#[test]
#[ignore]
fn third() {
    assert!(money::count("third") > 2, "not yet");
}
"#,
    ),
    (
        "tests/many.rs",
        "macro_rules! fail {\n    ($($name:ident)*) => {\n        $(#[test] fn $name() { money::count(\"many\"); panic!(); })*\n    };\n}\n\
         fail!(a b c d e f g h i j k);\n",
    ),
    (
        "tests/flaky.rs",
        "#[test]\nfn flaky() {\n    assert!(money::count(\"flaky\") > 1);\n}\n",
    ),
];

/// Runs `test-report` in a folder with these options, for a `cargo test` with these arguments.
fn report(folder: &Folder, options: &[&str], arguments: &[&str]) -> Output {
    let words = [options, &["--", env!("CARGO"), "test"], arguments].concat();
    let mut command = command("test-report", &words);
    let command = as_user(&mut command, &folder.0).env("RUST_BACKTRACE", "0");
    command.output().expect("the program runs")
}

/// Returns the lines that a test has written, one each time it ran.
fn runs(folder: &Folder, test: &str) -> Vec<String> {
    let text = fs::read_to_string(folder.file(&format!("{test}.runs"))).unwrap_or_default();
    text.lines().map(String::from).collect()
}

/// Returns the events of the kept run.
fn events(folder: &Folder) -> Vec<Value> {
    let text = fs::read_to_string(folder.file("target/test-report/last.jsonl"));
    let text = text.expect("the run is kept");
    let events = text
        .lines()
        .filter_map(|line| serde_json::from_str(line).ok());
    events.collect()
}

/// Returns the events of a type and an event in the kept run.
fn those<'a>(events: &'a [Value], kind: &str, event: &str) -> Vec<&'a Value> {
    let is_one = |it: &&Value| it["type"] == kind && it["event"] == event;
    events.iter().filter(is_one).collect()
}

/// Returns how many tests of the kept run finished, passed, were flaky, and failed.
fn numbers(folder: &Folder) -> [u64; 4] {
    let file = folder.file("target/test-report/last.jsonl");
    let output = run("test-report", &["--format", "json", file.as_str()], b"");
    let report: Value = serde_json::from_slice(&output.stdout).expect("it is JSON");
    ["finished", "passed", "flaky", "failed"]
        .map(|name| report["numbers"][name].as_u64().expect("it is a number"))
}

#[test]
fn failed_tests_run_again_alone_until_they_pass() {
    let folder = Folder::new("retries");
    folder.write(&PACKAGE);
    let arguments = ["--test", "some", "--", "--include-ignored", "--logfile=log"];
    let output = report(&folder, &["--retries", "2"], &arguments);
    let text = String::from_utf8_lossy(&output.stdout).into_owned();
    assert_eq!(output.status.code(), Some(1), "{text}");
    assert_eq!(numbers(&folder), [6, 4, 2, 2]);
    assert!(
        text.contains("FLAKY 2/2") && text.contains("FLAKY 3/3"),
        "{text}"
    );
    assert_eq!(text.matches("(3 attempts)").count(), 2, "{text}");
    assert_attempts_of_text(&text);
    // Each test runs again alone, with the options of the harness.
    let counts = ["always", "crashes", "passes", "second", "more", "third"]
        .map(|test| runs(&folder, test).len());
    assert_eq!(counts, [3, 3, 1, 2, 1, 3]);
    let alone = &runs(&folder, "second")[1];
    assert!(
        alone.contains(r#""--include-ignored", "--exact", "--", "second"]"#),
        "{alone}"
    );
    assert!(alone.contains(r#""--format", "json""#), "{alone}");
    let log = fs::read_to_string(folder.file("log")).expect("the harness writes it");
    assert_eq!(log.lines().count(), 6, "{log}");

    let events = events(&folder);
    let failed: Vec<_> = those(&events, "test", "failed");
    let names: Vec<_> = failed
        .iter()
        .map(|event| event["name"].as_str().unwrap_or(""))
        .collect();
    assert_eq!(names.len(), 2);
    assert!(
        names.contains(&"always_fails#3") && names.contains(&"crashes_later#3"),
        "{names:?}"
    );
    let of = |name: &str| {
        failed
            .iter()
            .find(|event| event["name"] == name)
            .expect("it is there")
    };
    let stdout = of("always_fails#3")["stdout"].as_str().expect("it has one");
    assert!(stdout.contains("no money 3"), "{stdout}");
    assert!(of("always_fails#3")["exec_time"].is_f64());
    let crash = of("crashes_later#3");
    assert_eq!(
        crash["message"],
        "its program ended by signal 6 and no line says how the test did"
    );
    // Why the first attempt failed is not lost.
    let stdout = crash["stdout"].as_str().expect("it has one");
    let first = between(
        stdout,
        "--- ATTEMPT 1 FAILED ---\n",
        "--- ATTEMPT 2 FAILED ---\n",
    );
    assert!(first.contains("first\n"), "{stdout}");
    let message = crash["message"].as_str().expect("it has one");
    let last = format!("--- ATTEMPT 3 FAILED ---\n{message}\nthe end\n");
    assert!(stdout.ends_with(&last), "{stdout}");
    assert!(text.contains("tests/some.rs:13:5:\n    first\n"), "{text}");
    let last = those(&events, "suite", "failed");
    assert_eq!(
        (last.len(), &last[0]["passed"], &last[0]["failed"]),
        (1, &json!(4), &json!(2))
    );
    assert_eq!(those(&events, "program", "ended")[0]["status"], 101);
    assert_forms(&folder);
}

/// Asserts that a text says why the attempts of flaky tests failed: when the tests passed, and in the list.
fn assert_attempts_of_text(text: &str) {
    let (lines, list) = text.split_once("\n------------\n").expect("it has a list");
    let of_third = lines
        .split_once("money::some third\n")
        .expect("it has the test")
        .1;
    let of_third: Vec<_> = of_third
        .lines()
        .take_while(|line| line.starts_with("    "))
        .filter(|line| line.contains("attempt ") || line.contains("not yet"))
        .collect();
    let wanted = [
        "attempt 1 failed:",
        "not yet",
        "attempt 2 failed:",
        "not yet",
    ];
    assert_eq!(of_third, wanted.map(|line| format!("    {line}")), "{text}");
    for (test, place) in [("second", "23:5"), ("third", "34:5")] {
        let reason = format!("money::some {test}: panicked at tests/some.rs:{place}: not yet\n");
        assert_eq!(list.matches(&reason).count(), 1, "{text}");
    }
}

/// Asserts what the forms of the kept run say of flaky tests.
fn assert_forms(folder: &Folder) {
    let file = folder.file("target/test-report/last.jsonl");
    let form = |form: &str| {
        let output = run("test-report", &["--format", form, file.as_str()], b"");
        assert_eq!(output.status.code(), Some(1));
        String::from_utf8(output.stdout).expect("the report is UTF-8")
    };
    let json: Value = serde_json::from_str(&form("json")).expect("it is JSON");
    let tests = json["suites"][0]["tests"]
        .as_array()
        .expect("it has the tests");
    let second = tests
        .iter()
        .find(|test| test["name"] == "second")
        .expect("it has the test");
    assert_eq!(second["attempts"], 2, "{second}");
    let attempts = second["failed_attempts"]
        .as_array()
        .expect("it has attempts");
    assert_eq!(attempts.len(), 1);
    assert_eq!(
        attempts[0]["short"],
        "panicked at tests/some.rs:23:5: not yet"
    );
    assert_eq!(attempts[0]["place"]["line"], "23");
    let output = attempts[0]["output"].as_str().expect("it is a text");
    assert!(
        output.contains("panicked at tests/some.rs:23:5:\nnot yet\n"),
        "{output}"
    );
    assert_eq!(json["numbers"]["flaky"], 2);
    let html = form("html");
    assert!(html.contains("4 passed (2 flaky), 2 failed"), "{html}");
    let flaky = between(&html, "<h2>Flaky tests</h2>", "</table>");
    let rows: Vec<_> = flaky
        .lines()
        .filter(|it| it.contains("scope=\"row\""))
        .collect();
    assert_eq!(rows.len(), 2, "{flaky}");
    for (attempt, count) in [(1, 2), (2, 1)] {
        let summary = format!("<summary>attempt {attempt} failed: ");
        assert_eq!(flaky.matches(&summary).count(), count, "{flaky}");
    }
    for test in ["second", "third"] {
        let name = format!("money::some {test}<");
        assert_eq!(
            rows.iter().filter(|it| it.contains(&name)).count(),
            1,
            "{flaky}"
        );
    }
    let junit = form("junit");
    for (test, attempts) in [
        ("always_fails", 0),
        ("passes", 0),
        ("second", 1),
        ("third", 2),
    ] {
        let case = between(&junit, &format!("<testcase name=\"{test}\""), "</testcase>");
        assert_eq!(case.matches("<flakyFailure ").count(), attempts, "{case}");
        let reasons = case.matches(":\nnot yet").count();
        assert_eq!(reasons, attempts, "{case}");
    }
    let markdown = form("markdown");
    assert!(
        markdown.contains("4 passed (2 flaky), 2 failed"),
        "{markdown}"
    );
    let names = form("names");
    assert_eq!(names.lines().count(), 2, "{names}");
    assert!(
        !names.contains("second") && !names.contains("third"),
        "{names}"
    );
}

/// Returns what of a text is between two others.
fn between<'a>(text: &'a str, front: &str, end: &str) -> &'a str {
    let (_, rest) = text.split_once(front).expect("it begins so");
    rest.split_once(end).expect("it ends so").0
}

#[test]
fn a_flaky_test_says_why_it_failed_although_its_output_was_not_captured() {
    let folder = Folder::new("nocapture");
    folder.write(&PACKAGE);
    let arguments = ["--test", "some", "--", "--include-ignored", "--nocapture"];
    let output = report(&folder, &["--retries", "2"], &arguments);
    let text = String::from_utf8_lossy(&output.stdout);
    assert_eq!(numbers(&folder), [6, 4, 2, 2], "{text}");
    assert_attempts_of_text(&text);
    assert!(!text.contains("no output was captured"), "{text}");
}

#[test]
fn a_run_whose_tests_pass_at_last_is_a_success() {
    let folder = Folder::new("flaky");
    folder.write(&PACKAGE);
    // Documentation tests run again, too.
    let output = report(&folder, &["--retries", "1"], &["--test", "flaky"]);
    let text = String::from_utf8_lossy(&output.stdout).into_owned();
    assert_eq!(output.status.code(), Some(0), "{text}");
    assert_eq!(numbers(&folder), [1, 1, 1, 0], "{text}");
    assert!(text.contains("1 passed (1 flaky)"), "{text}");
    let events = events(&folder);
    assert_eq!(those(&events, "suite", "ok").len(), 1);
    assert_eq!(those(&events, "program", "ended")[0]["status"], 0);
    assert_eq!(those(&events, "command", "ended")[0]["status"], 0);
    let output = report(&folder, &["--retries", "1"], &["--doc"]);
    let text = String::from_utf8_lossy(&output.stdout).into_owned();
    assert_eq!(numbers(&folder), [2, 2, 1, 0], "{text}");
    assert_eq!(runs(&folder, "documented").len(), 2);
    assert_eq!(output.status.code(), Some(0), "{text}");
}

#[test]
fn a_test_that_forges_its_end_when_it_runs_again_still_fails() {
    let folder = Folder::new("forges");
    folder.write(&PACKAGE[..2]);
    let tests = r###"
unsafe extern "C" {
    safe fn atexit(call: extern "C" fn()) -> i32;
    safe fn _exit(status: i32) -> !;
}

extern "C" fn print_ok() {
    println!(r#"{{ "type": "test", "name": "after_the_harness", "event": "ok" }}"#);
}

#[test]
fn after_the_harness() {
    if money::count("after_the_harness") > 1 {
        atexit(print_ok);
    }
    panic!("no money");
}

extern "C" fn exit_well() {
    println!(r#"{{ "type": "test", "name": "and_its_status", "event": "ok" }}"#);
    _exit(0);
}

#[test]
fn and_its_status() {
    if money::count("and_its_status") > 1 {
        atexit(exit_well);
    }
    panic!("no money");
}

#[test]
fn instead_of_the_harness() {
    if money::count("instead_of_the_harness") > 1 {
        let ok = r#"{ "type": "test", "name": "instead_of_the_harness", "event": "ok" }"#;
        std::io::Write::write_all(&mut std::io::stdout(), ok.as_bytes()).unwrap();
        std::process::exit(0);
    }
    panic!("no money");
}
"###;
    folder.write(&[("tests/some.rs", tests)]);
    let output = report(&folder, &["--retries", "1"], &["--test", "some"]);
    let text = String::from_utf8(output.stdout).expect("the report is UTF-8");
    assert_eq!(output.status.code(), Some(1), "{text}");
    assert_eq!(numbers(&folder), [3, 0, 0, 3], "{text}");
    let ended = "its program ended with status 0 after a line that says how the test did";
    for (test, why) in [
        ("after_the_harness", "no money"),
        ("and_its_status", ended),
        ("instead_of_the_harness", ended),
    ] {
        assert_eq!(runs(&folder, test).len(), 2, "{test}");
        assert!(text.contains(&format!("{test}: {why}\n")), "{text}");
    }
}

#[test]
fn nothing_runs_again_if_too_many_tests_failed_or_the_program_crashed() {
    let folder = Folder::new("many");
    folder.write(&PACKAGE);
    folder.write(&[(
        "tests/crash.rs",
        "#[test]\nfn fails() {\n    money::count(\"fails\");\n    panic!();\n}\n\n#[test]\nfn more() {\n    \
         std::thread::sleep(std::time::Duration::from_millis(500));\n    std::process::abort();\n}\n",
    )]);
    let output = report(
        &folder,
        &["--retries", "2"],
        &["--test", "many", "--test", "crash"],
    );
    let text = String::from_utf8_lossy(&output.stdout).into_owned();
    assert_eq!(output.status.code(), Some(1), "{text}");
    assert_eq!(runs(&folder, "many").len(), 11);
    assert_eq!(runs(&folder, "fails").len(), 1);
    assert!(!text.contains("attempts"), "{text}");
    let said = |output: &Output| {
        let text = String::from_utf8_lossy(&output.stderr).into_owned();
        let own = text
            .lines()
            .filter(|line| line.starts_with("test-report: "));
        own.map(String::from).collect::<Vec<_>>()
    };
    let why = "test-report: money::many: 11 tests failed, so none ran again (--retries-max 10)";
    assert_eq!(said(&output), [why]);
    let output = report(
        &folder,
        &["--retries", "1", "--retries-max", "11"],
        &["--test", "many"],
    );
    let text = String::from_utf8_lossy(&output.stdout).into_owned();
    assert_eq!(runs(&folder, "many").len(), 33, "{text}");
    assert_eq!(numbers(&folder), [11, 0, 0, 11], "{text}");
    assert_eq!(said(&output), [""; 0]);
}

/// Runs `test-report` for the tests of a file, one after the other, in a process group of its own, until a test has
/// run so often. Then `kill` gets the arguments that say which signal it sends to whom; `$1` is the number of the process.
/// Returns the report.
fn report_after(folder: &Folder, tests: &str, run: (&str, usize), kill: &str) -> String {
    let words = [
        "--retries",
        "3",
        "--",
        env!("CARGO"),
        "test",
        "--test",
        tests,
        "--",
        "--test-threads=1",
    ];
    let mut command = command("test-report", &words);
    let running = common::started(as_user(&mut command, &folder.0).process_group(0));
    let file = folder.file(&format!("{}.runs", run.0));
    common::soon("the attempt", move || {
        while fs::read_to_string(&file).map_or(0, |text| text.lines().count()) < run.1 {
            std::thread::sleep(std::time::Duration::from_millis(20));
        }
    });
    let script = format!("sleep 0.3; kill -s {kill}");
    let mut kill = Command::new("sh");
    kill.args(["-c", &script, "sh", &running.child.id().to_string()]);
    let status = kill.current_dir(&folder.0).status();
    assert!(status.expect("a shell runs").success(), "{script}");
    let (mut child, stdout) = (running.child, running.stdout);
    let text = common::soon("the report", move || std::io::read_to_string(stdout));
    let text = text.expect("it is UTF-8");
    assert_eq!(child.wait().expect("it ends").code(), Some(1), "{text}");
    text
}

#[test]
fn a_signal_ends_a_test_that_runs_again_and_its_first_result_counts() {
    let folder = Folder::new("signal");
    folder.write(&PACKAGE);
    folder.write(&[(
        "tests/waits.rs",
        "fn wait(test: &str) {\n    if money::count(test) > 1 {\n        \
         std::fs::write(\"stand_in\", std::os::unix::process::parent_id().to_string()).unwrap();\n        \
         std::thread::sleep(std::time::Duration::from_secs(60));\n    }\n    panic!(\"the first of {test}\");\n}\n\n\
         #[test]\nfn waits() {\n    wait(\"waits\");\n}\n\n\
         #[test]\nfn z_waits() {\n    wait(\"z_waits\");\n}\n",
    )]);
    for kill in ["TERM $1", "TERM $(cat stand_in)", "INT -- -$1"] {
        let text = report_after(&folder, "waits", ("waits", 2), kill);
        for test in ["waits", "z_waits"] {
            assert!(text.contains(&format!("money::waits {test}")), "{text}");
            assert!(text.contains(&format!("the first of {test}")), "{text}");
        }
        let events = events(&folder);
        let failed: Vec<_> = those(&events, "test", "failed");
        let names: Vec<_> = failed.iter().map(|it| it["name"].clone()).collect();
        assert_eq!(names, ["waits", "z_waits"], "{kill}");
        if kill.starts_with("INT") {
            assert_cancelled_after_failures(&events);
        }
        // Once an attempt was stopped, no other test runs again.
        assert_eq!(runs(&folder, "waits").len(), 2, "{kill}");
        assert_eq!(runs(&folder, "z_waits").len(), 1, "{kill}");
        fs::remove_file(folder.file("waits.runs")).expect("it is there");
        fs::remove_file(folder.file("z_waits.runs")).expect("it is there");
    }
}

#[test]
fn after_ctrl_c_it_is_known_why_tests_failed_that_were_to_run_again() {
    let folder = Folder::new("ctrl_c");
    folder.write(&PACKAGE);
    folder.write(&[(
        "tests/hangs.rs",
        "#[test]\nfn fails() {\n    panic!(\"no money at all\");\n}\n\n\
         #[test]\nfn hangs() {\n    money::count(\"hangs\");\n    \
         std::thread::sleep(std::time::Duration::from_secs(60));\n}\n",
    )]);
    let text = report_after(&folder, "hangs", ("hangs", 1), "INT -- -$1");
    // The test has an entry with its output, and one in the list.
    assert!(text.matches("money::hangs fails").count() >= 2, "{text}");
    assert!(
        text.contains("panicked at") && text.contains("no money at all"),
        "{text}"
    );
    assert!(text.contains("STOPPED money::hangs hangs"), "{text}");
    let cancelled =
        "money::hangs: 1 of 2 tests were not run\nthe run was cancelled (Interrupt)\n---";
    assert!(text.contains(cancelled), "{text}");
    assert!(text.contains("\n1 failed, 1 not run in "), "{text}");
    assert_cancelled_after_failures(&events(&folder));
}

/// Asserts that a run says that it is cancelled after all failed tests, and before the end of their program.
fn assert_cancelled_after_failures(events: &[Value]) {
    let is_one = |it: &Value, kind: &str, event: &str| it["type"] == kind && it["event"] == event;
    let cancelled = events
        .iter()
        .position(|it| is_one(it, "command", "cancelled"));
    let (before, after) = events.split_at(cancelled.expect("it is cancelled"));
    assert!(
        !after.iter().any(|it| is_one(it, "test", "failed")),
        "{events:?}"
    );
    assert!(
        !before.iter().any(|it| is_one(it, "program", "ended")),
        "{events:?}"
    );
}
