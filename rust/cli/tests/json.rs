//! The form `json` on stored runs: one line, which `serde_json` reads, with the numbers of the form `text`.

use crate::common::run;
use deodarsieve_cli::report_text::ReportText;
use serde_json::Value;
use std::fs;
use std::path::{Path, PathBuf};

/// Returns the stored runs of this package and, inside the repository, of its examples.
fn stored_runs() -> Vec<PathBuf> {
    let package = Path::new(env!("CARGO_MANIFEST_DIR"));
    ["tests/samples/test-report", "../../examples/test-report"]
        .iter()
        .filter_map(|folder| fs::read_dir(package.join(folder)).ok())
        .flatten()
        .map(|entry| entry.expect("the folder can be read").path())
        .filter(|path| path.extension().is_some_and(|found| found == "jsonl"))
        .collect()
}

/// Returns the report of a run in a form.
fn report(form: &str, path: &Path) -> String {
    let lines = fs::read(path).expect("the run can be read");
    let output = run(
        "test-report",
        &["--format", form, "--color", "never"],
        &lines,
    );
    String::from_utf8(output.stdout).expect("the report is UTF-8")
}

/// Returns a number of an object.
fn number(object: &Value, name: &str) -> u64 {
    object["numbers"][name]
        .as_u64()
        .unwrap_or_else(|| panic!("no number {name} in {object}"))
}

/// Returns the line of the summary that the form `text` has for a report in JSON.
fn summary(report: &Value) -> String {
    let of = |name| number(report, name);
    let time = match report["time"].as_f64() {
        Some(seconds) => format!("[{seconds:>8.3}s] "),
        None => String::new(),
    };
    let slow = match of("slow") {
        0 => String::new(),
        slow => format!(", {slow} slow"),
    };
    format!(
        "     Summary {time}{} tests run: {} passed ({} flaky{slow}), {} failed ({} timed out, {} crashed), {} skipped, {} not run",
        of("finished"),
        of("passed"),
        of("flaky"),
        of("failed"),
        of("timed_out"),
        of("crashed"),
        of("skipped"),
        of("not_run"),
    )
}

/// Returns the elements of a list.
fn list<'a>(object: &'a Value, name: &str) -> &'a [Value] {
    object[name]
        .as_array()
        .unwrap_or_else(|| panic!("no list {name} in {object}"))
}

/// Returns how many tests of the suites have one of these results.
fn count(suites: &[Value], results: &[&str]) -> u64 {
    let tests = suites.iter().flat_map(|suite| list(suite, "tests"));
    let found = tests.filter(|test| results.iter().any(|result| test["result"] == *result));
    found.count() as u64
}

#[test]
fn reports_in_json_have_the_numbers_of_the_text() {
    let runs = stored_runs();
    assert!(!runs.is_empty());
    for path in runs {
        let (name, text) = (path.display(), report("text", &path));
        let json = report("json", &path);
        assert_eq!(json.find('\n'), Some(json.len() - 1), "{name}");
        let found: Value = serde_json::from_str(&json).expect("the report is JSON");
        let lines: Vec<&str> = text.lines().collect();
        assert!(lines.contains(&summary(&found).as_str()), "{name}: {text}");
        let outcome = found["outcome"].as_str().expect("the outcome is a text");
        assert_eq!(
            *lines.last().expect("the text has lines"),
            format!("outcome {outcome}")
        );
        for problem in list(&found, "problems") {
            let mut line = ReportText::new();
            line.push_line(problem["line"].as_str().expect("the line is a text"));
            let line = line.finish();
            assert!(
                outcome == "no-tests-run" || lines.contains(&line.as_str()),
                "{name}: {line}"
            );
        }
    }
}

#[test]
fn suites_in_json_have_their_tests() {
    for path in stored_runs() {
        let found: Value =
            serde_json::from_str(&report("json", &path)).expect("the report is JSON");
        let suites = list(&found, "suites");
        for (of, results) in [
            ("failed", &["failed", "timed out", "crashed"][..]),
            ("crashed", &["crashed"]),
        ] {
            let name = path.display();
            assert_eq!(count(suites, results), number(&found, of), "{name}: {of}");
            for suite in suites {
                let alone = std::slice::from_ref(suite);
                assert_eq!(count(alone, results), number(suite, of), "{name}: {suite}");
            }
        }
        assert_eq!(count(suites, &["passed"]), number(&found, "passed"));
    }
}
