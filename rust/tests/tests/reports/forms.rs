//! The report of a small run in each form, and several files that are one run.

use crate::reports::small_run::{RUN, report_of_run};
use crate::reports::{GITHUB, reported};
use deodarsieve::RunOutcome;
use deodarsieve_cli::report::{Document, Files, Format, Json};
use deodarsieve_run::{CommandEnd, SuiteNames};
use deodarsieve_tests::reports::{OPTIONS, new_report, read_files, write_report};
use std::io;

/// The report as commands of a workflow on GitHub.
const COMMANDS: &str = "::error::suite 1: 1 of 2 tests were not run\n\
     ::error title=suite 1 a::suite 1 a%0Awhy\n\
     ::notice::1 tests run: 0 passed (0 flaky), 1 failed (0 timed out, 0 crashed), 0 skipped, \
     1 not run, outcome failed\n";

/// The report for people with annotations between its lines.
const ANNOTATED: &str = "FAIL suite 1 a\n    why\n\
     suite 1: 1 of 2 tests were not run\n\
     ::error::suite 1: 1 of 2 tests were not run\n\
     ------------\n        \
     FAIL suite 1 a: why\n\
     1 failed, 1 not run\n\
     ------------\n     \
     Summary 1 tests run: 0 passed (0 flaky), 1 failed (0 timed out, 0 crashed), 0 skipped, 1 not run\n\
     outcome failed\n\
     ::error title=suite 1 a::suite 1 a%0Awhy\n\
     ::notice::1 tests run: 0 passed (0 flaky), 1 failed (0 timed out, 0 crashed), 0 skipped, \
     1 not run, outcome failed\n";

/// The report in JUnit's XML.
const JUNIT: &str = r#"<?xml version="1.0" encoding="UTF-8"?>
<testsuites name="test-report" tests="2" failures="1" errors="1">
<testsuite name="suite 1" tests="2" failures="1" errors="1" skipped="0">
<testcase name="a" classname="suite 1">
<failure message="why" type="test failure">why</failure>
</testcase>
<testcase name="suite 1: 1 of 2 tests were not run" classname="test-report">
<error message="suite 1: 1 of 2 tests were not run" type="not run">suite 1: 1 of 2 tests were not run</error>
</testcase>
</testsuite>
</testsuites>
"#;

/// The report in Markdown.
const MARKDOWN: &str = r#"## Test report: failed

1 tests run: 0 passed (0 flaky), 1 failed (0 timed out, 0 crashed), 0 skipped, 1 not run

- suite 1: 1 of 2 tests were not run

| Result | Test | Time | Why |
| --- | --- | ---: | --- |
| FAIL | suite 1 a |  | why |

<details><summary>FAIL suite 1 a</summary>

<pre>
why</pre>

</details>

"#;

/// The report in JSON.
const JSON: &str = "{\"outcome\":\"failed\",\
     \"numbers\":{\"finished\":1,\"passed\":0,\"flaky\":0,\"slow\":0,\"failed\":1,\"timed_out\":0,\"crashed\":0,\
     \"skipped\":0,\"not_run\":1},\
     \"suites\":[{\"name\":\"suite 1\",\
     \"numbers\":{\"finished\":1,\"passed\":0,\"flaky\":0,\"slow\":0,\"failed\":1,\"timed_out\":0,\"crashed\":0,\
     \"skipped\":0,\"not_run\":1},\
     \"tests\":[{\"name\":\"a\",\"written_name\":\"a\",\"result\":\"failed\",\"attempts\":1,\
     \"slow\":false,\"short\":\"why\",\"why\":\"why\"}]}],\
     \"problems\":[{\"kind\":\"not run\",\"suite\":\"suite 1\",\
     \"line\":\"suite 1: 1 of 2 tests were not run\"}]}\n";

/// How a page for a browser begins and ends.
const PAGE: (&str, &str) = (
    "<!DOCTYPE html>\n<html lang=\"en\">\n",
    "</body>\n</html>\n",
);

/// The text for people with annotations.
const WITH_ANNOTATIONS: Format = Format::Annotated {
    annotations: OPTIONS,
};

#[test]
fn each_form_has_its_report() {
    for (format, wanted) in [
        (Format::Text, report_of_run().as_str()),
        (Format::Names, "a\n"),
        (GITHUB, COMMANDS),
        (WITH_ANNOTATIONS, ANNOTATED),
        (Format::Junit, JUNIT),
        (Format::Markdown, MARKDOWN),
        (Format::Json, JSON),
    ] {
        assert_eq!(
            reported(OPTIONS, format, &[RUN]),
            (wanted.to_owned(), false)
        );
    }
    let (page, success) = reported(OPTIONS, Format::Html, &[RUN]);
    assert!(page.starts_with(PAGE.0) && page.ends_with(PAGE.1), "{page}");
    assert!(!success);
}

/// A suite whose end makes known that a test without an end failed, that its last line contradicts its tests, and that
/// two tests were not run.
const SUITE_END: &str = r#"{"type":"suite","event":"started","test_count":4}
{"type":"test","event":"started","name":"a"}
{"type":"test","event":"started","name":"b"}
{"type":"test","event":"failed","name":"b","message":"why"}
{"type":"suite","event":"failed","passed":1,"failed":2,"ignored":0,"measured":0,"filtered_out":0}
"#;

#[test]
fn annotations_come_after_all_texts_of_a_line_and_of_the_run() {
    let (text, _) = reported(OPTIONS, WITH_ANNOTATIONS, &[SUITE_END]);
    let (before, end) = text
        .split_once("------------\n")
        .expect("the list has a rule");
    assert_eq!(
        before,
        "FAIL suite 1 b\n    why\n\
         FAIL suite 1 a\n    no line says how it ended\n\
         suite 1: its last line counts 1 passed and 2 failed (failed), but 0 of its tests passed and 2 failed\n\
         suite 1: 2 of 4 tests were not run\n\
         ::error::suite 1: its last line counts 1 passed and 2 failed (failed), but 0 of its tests passed and 2 failed\n\
         ::error::suite 1: 2 of 4 tests were not run\n"
    );
    let (_, after) = end.split_once("outcome failed\n").expect("it has failed");
    let (failures, _) = after.split_once("::notice::").expect("it has a notice");
    assert_eq!(
        failures,
        "::error title=suite 1 b::suite 1 b%0Awhy\n\
         ::error title=suite 1 a::suite 1 a%0Ano line says how it ended\n"
    );
}

/// All files.
const ALL_FILES: Files = Files {
    junit: true,
    html: true,
    markdown: true,
    json: true,
    names: false,
};

#[test]
fn files_have_their_forms() {
    let mut written = Vec::new();
    let report = new_report(OPTIONS, Format::Names, ALL_FILES);
    let end = write_report(report, RUN.as_bytes(), &mut written).expect("the report is whole");
    assert_eq!(written, b"a\n");
    assert_eq!(end.run.not_run, 1);
    let files = &end.files;
    assert_eq!(files.junit.as_ref().map(Document::as_str), Some(JUNIT));
    assert_eq!(
        files.markdown.as_ref().map(Document::as_str),
        Some(MARKDOWN)
    );
    assert_eq!(files.json.as_ref().map(Json::as_str), Some(JSON));
    let page = files.html.as_ref().map_or("", Document::as_str);
    assert!(page.starts_with(PAGE.0) && page.ends_with(PAGE.1), "{page}");
}

#[test]
fn files_that_are_not_wanted_have_no_texts() {
    let report = new_report(OPTIONS, Format::Text, Files::default());
    let end = write_report(report, RUN.as_bytes(), &mut io::sink()).expect("the report is whole");
    let files = &end.files;
    assert!(files.junit.is_none() && files.html.is_none());
    assert!(files.markdown.is_none() && files.json.is_none());
}

#[test]
fn several_files_are_one_run() {
    // The first file has no last line.
    let (cut, _last) = RUN.rsplit_once('{').expect("a line begins with a brace");
    let mut written = Vec::new();
    let mut report = new_report(OPTIONS, Format::Names, Files::default());
    read_files(&mut report, &[cut, RUN], &mut written).expect("the numbers fit");
    let end = report.finish(None, &mut written).expect("the report ends");
    let run = end.run;
    assert_eq!(written, b"a\na\n");
    assert_eq!((run.stats.failed, run.not_run), (2, 2));
}

/// Returns the text before the summary of a command that wrote nothing.
fn text_of_end(end: &CommandEnd) -> String {
    let mut written = Vec::new();
    let mut report = new_report(OPTIONS, Format::Text, Files::default());
    report.start_command(SuiteNames::new());
    let ended = report
        .finish(Some(end.clone()), &mut written)
        .expect("the report ends");
    assert_ne!(ended.run.outcome, RunOutcome::Success, "{end:?}");
    let text = String::from_utf8(written).expect("the report is UTF-8");
    let (before, _) = text
        .split_once("------------\n")
        .expect("the summary has a rule");
    before.to_owned()
}

#[test]
fn a_command_that_fails_is_a_problem() {
    let not_started = CommandEnd::NotStarted {
        error: "no \u{1b}[1m file".to_owned(),
    };
    for (end, line) in [
        (CommandEnd::Signal { number: 9 }, "ended by signal 9"),
        (
            CommandEnd::Status { code: 4 },
            "ended with status 4, and no line says why",
        ),
        (not_started, "could not be started: no \\u{1b}[1m file"),
    ] {
        let text = text_of_end(&end);
        let wanted = format!("the command {line}\n");
        assert!(text.ends_with(&wanted), "{text}");
    }
}
