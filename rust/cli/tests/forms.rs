//! The forms of `test-report` that are written at the end.

use crate::common::run;

/// A run in which a test passes, one is skipped, one fails with hostile text, one crashes, and one is not run.
const RUN: &str = r#"
{ "type": "suite", "event": "started", "test_count": 4 }
{ "type": "test", "event": "started", "name": "adds" }
{ "type": "test", "name": "adds", "event": "ok", "exec_time": 0.25 }
{ "type": "test", "name": "waits", "event": "ignored" }
{ "type": "test", "event": "started", "name": "a|b <c>" }
{ "type": "test", "name": "a|b <c>", "event": "failed", "stdout": "Error: \"x\" & </pre>\u001b[1m\u001b[K\uffff\r\nand *more*\n" }
{ "type": "suite", "event": "failed", "passed": 1, "failed": 1, "ignored": 1, "measured": 0, "exec_time": 0.5 }
{ "type": "suite", "event": "started", "test_count": 1 }
{ "type": "test", "event": "started", "name": "ends" }
"#;

/// The run in JUnit's XML.
const JUNIT: &str = r#"<?xml version="1.0" encoding="UTF-8"?>
<testsuites name="test-report" tests="5" failures="1" errors="2" time="0.500">
<testsuite name="suite 1" tests="4" failures="1" errors="1" skipped="1" time="0.500">
<testcase name="adds" classname="suite 1" time="0.250"></testcase>
<testcase name="waits" classname="suite 1">
<skipped/>
</testcase>
<testcase name="a|b &lt;c&gt;" classname="suite 1">
<failure message="Error: &quot;x&quot; &amp; &lt;/pre&gt;\u{1b}[K&#xFFFD;" type="test failure">Error: "x" &amp; &lt;/pre&gt;\u{1b}[K&#xFFFD;
and *more*</failure>
<system-out>Error: "x" &amp; &lt;/pre&gt;\u{1b}[K&#xFFFD;
and *more*
</system-out>
</testcase>
<testcase name="suite 1: 1 of 3 tests were not run" classname="test-report">
<error message="suite 1: 1 of 3 tests were not run" type="not run">suite 1: 1 of 3 tests were not run</error>
</testcase>
</testsuite>
<testsuite name="suite 2" tests="1" failures="0" errors="1" skipped="0">
<testcase name="ends" classname="suite 2">
<error message="its process ended before it did" type="crashed">its process ended before it did</error>
</testcase>
</testsuite>
</testsuites>
"#;

/// The run in Markdown.
const MARKDOWN: &str = r#"## Test report: failed

3 tests run: 1 passed (0 flaky), 2 failed (0 timed out, 1 crashed), 1 skipped, 1 not run, in 0&#46;500s

- suite 1: 1 of 3 tests were not run

| Result | Test | Time | Why |
| --- | --- | ---: | --- |
| FAIL | suite 1 a&#124;b &#60;c&#62; |  | Error: "x" &#38; &#60;&#47;pre&#62;&#92;u&#123;1b&#125;&#91;K&#xFFFD; |
| CRASH | suite 2 ends |  | its process ended before it did |

<details><summary>FAIL suite 1 a&#124;b &#60;c&#62;</summary>

<pre>
Error: "x" &amp; &lt;/pre&gt;\u{1b}[K&#xFFFD;
and *more*</pre>

</details>

<details><summary>CRASH suite 2 ends</summary>

<pre>
its process ended before it did</pre>

</details>

"#;

/// Returns a text with the character that is written as a reference in the expected texts above.
fn with_characters(text: &str) -> String {
    text.replace("&#xFFFD;", "\u{fffd}")
}

/// Returns the standard output of the program with arguments on the run, and asserts its exit status. Lines that are no
/// events are not passed on.
fn report(arguments: &[&str], input: &str, status: i32) -> String {
    let arguments = &[&["--others", "never"], arguments].concat();
    let output = run("test-report", arguments, input.as_bytes());
    assert_eq!(String::from_utf8_lossy(&output.stderr), "", "{arguments:?}");
    assert_eq!(output.status.code(), Some(status), "{arguments:?}");
    String::from_utf8(output.stdout).expect("the text is UTF-8")
}

#[test]
fn junit() {
    assert_eq!(
        report(&["--format", "junit"], RUN, 1),
        with_characters(JUNIT)
    );
}

/// A suite without tests.
const NO_TESTS: &str = r#"{ "type": "suite", "event": "started", "test_count": 0 }
{ "type": "suite", "event": "ok", "passed": 0, "failed": 0 }
"#;

#[test]
fn junit_of_no_tests() {
    let text = report(&["--format", "junit"], NO_TESTS, 1);
    assert!(
        text.contains(r#"<error message="no test ran" type="no tests">"#),
        "{text}"
    );
    assert!(
        text.contains(r#"tests="1" failures="0" errors="1""#),
        "{text}"
    );
    let text = report(&["--format", "junit", "--no-tests", "pass"], NO_TESTS, 0);
    assert!(
        text.contains(r#"tests="0" failures="0" errors="0""#),
        "{text}"
    );
    assert!(!text.contains("<testcase"), "{text}");
}

#[test]
fn markdown() {
    assert_eq!(
        report(&["--format", "markdown"], RUN, 1),
        with_characters(MARKDOWN)
    );
}

/// What Rust's harness and the tests of a package wrote to both streams with `--nocapture` and one thread.
const UNCAPTURED: &str = include_str!("samples/test-report/uncaptured.jsonl");

#[test]
fn each_form_has_the_panic_of_a_test_whose_output_was_not_captured() {
    let listed = "\
        FAIL 2 tests: src/lib.rs:5:29: the price is paid
             shop (tests/shop.rs) gives_no_credit
             till (unittests src/lib.rs) tests::gives_no_credit
";
    let forms = [
        ("text", "\n    the price is paid\n", listed),
        (
            "github",
            "::error file=src/lib.rs,line=5,col=29,title=2 tests%3A src/lib.rs%3A5%3A29%3A the price is paid::\
             2 tests: src/lib.rs:5:29: the price is paid%0Atill (unittests src/lib.rs) tests::gives_no_credit%0A\
             shop (tests/shop.rs) gives_no_credit%0Athread 'tests::gives_no_credit' ",
            "%0Athe price is paid\n",
        ),
        (
            "junit",
            "classname=\"till (unittests src/lib_rs)\" file=\"src/lib.rs\" line=\"5\">",
            "<failure message=\"panicked at src/lib.rs:5:29: the price is paid\" type=\"test failure\">",
        ),
        (
            "html",
            "<pre><code>thread 'tests::gives_no_credit' (19297)",
            "\nthe price is paid</code></pre>",
        ),
        ("markdown", "<pre>\nthread ", "\nthe price is paid</pre>"),
        (
            "json",
            r#""place":{"file":"src/lib.rs","line":"5","column":"29"},"short":"panicked at src/lib.rs:5:29: the price is paid""#,
            r"\nthe price is paid",
        ),
    ];
    for (form, first, second) in forms {
        let text = report(&["--format", form, "--annotations", "never"], UNCAPTURED, 1);
        for part in ["(19297) panicked at src/lib.rs:5:29:", first, second] {
            assert!(text.contains(part), "{form} without {part:?}:\n{text}");
        }
    }
}

/// Returns a run in which a test fails for each output, and has it.
fn run_with_outputs(outputs: impl IntoIterator<Item = String>) -> String {
    let tests: Vec<_> = outputs
        .into_iter()
        .map(|output| {
            let output = output.replace('\n', "\\n");
            format!(
                r#"{{ "type": "test", "event": "started", "name": "a" }}
{{ "type": "test", "event": "failed", "name": "a", "stdout": "{output}" }}
"#
            )
        })
        .collect();
    let count = tests.len();
    format!(
        r#"{{ "type": "suite", "event": "started", "test_count": {count} }}
{}{{ "type": "suite", "event": "failed", "passed": 0, "failed": {count} }}
"#,
        tests.concat()
    )
}

/// Returns a run in which tests fail for several reasons, each with this output after a line of its own.
fn run_with_reasons(tests: usize, output: &str) -> String {
    run_with_outputs((0..tests).map(|test| format!("Error: reason {test}\n{output}")))
}

/// Returns a run in which a test fails with this output.
fn run_with_output(output: &str) -> String {
    run_with_outputs([output.to_string()])
}

#[test]
fn whole_outputs_have_a_limit() {
    // 110,000 lines of 11 bytes. The last line feed is left out.
    let lines = run_with_output(&"<234567890\n".repeat(110_000));
    for (form, before) in [("html", 161_425), ("markdown", 1_193_621)] {
        let text = report(&["--format", form], &lines, 1);
        let expected = format!("({before} bytes before this)\n&lt;234567890\n");
        assert!(text.contains("<summary>output, 110000 lines</summary>"));
        assert!(text.contains(&expected), "{form}");
    }
    // A character has two bytes, and the last byte is one of its own.
    let line = run_with_output(&format!("{}x", "é".repeat(600_000)));
    for (form, before) in [("html", 151_426), ("markdown", 1_183_618)] {
        let text = report(&["--format", form], &line, 1);
        let expected = format!("({before} bytes before this)\né");
        assert!(text.contains("<summary>output, 1 lines</summary>"));
        assert!(text.contains(&expected), "{form}");
    }
}

#[test]
fn whole_outputs_of_a_page_have_a_limit_together() {
    // Each is shown as 1,048,601 bytes, and as 1,334,576 bytes between tags.
    let lines = run_with_reasons(18, &"<234567890\n".repeat(110_000));
    let page = report(&["--format", "html"], &lines, 1);
    assert_eq!(page.matches("<summary>output, ").count(), 13);
    assert_eq!(page.matches("<span>a</span>").count(), 18);
}

/// GitHub shows nothing of a summary that has more bytes.
const GITHUB: usize = 1_048_576;

/// Returns the number before the words `more WHAT` in a summary, or 0 if it does not have them.
fn more(summary: &str, what: &str) -> usize {
    let words = format!(" more {what}: a summary on GitHub holds 1 MiB");
    let text = summary.replace("&#40;", "(");
    text.split_once(&words).map_or(0, |(before, _)| {
        let number = before.rsplit('(').next().expect("there is a bracket");
        number.parse().expect("it is a number")
    })
}

/// Returns a line that says in a way that cannot be read that a test failed, and that is shown in 200 bytes.
fn damaged() -> String {
    format!(
        "{{\"type\":\"test\",\"event\":\"failed\",{}\n",
        "<>".repeat(100)
    )
}

#[test]
fn many_problems_leave_room_in_a_summary_for_failed_tests() {
    let tests = run_with_reasons(1_000, &"said\n".repeat(400));
    let lines = [damaged().repeat(10_000), tests].concat();
    let summary = report(&["--format", "markdown"], &lines, 1);
    assert!(summary.len() < GITHUB, "{}", summary.len());
    let problems = summary.matches("\n- a damaged line says ").count();
    let failed = summary
        .matches("\n<details><summary>FAIL suite 1 a<")
        .count();
    assert_eq!(summary.matches("\n| FAIL | suite 1 a |").count(), failed);
    assert!(problems > 100 && failed > 100, "{problems} {failed}");
    assert_eq!(problems + more(&summary, "problems"), 10_000);
    assert_eq!(failed + more(&summary, "failed tests"), 1_000);
}

#[test]
fn few_problems_and_failed_tests_are_all_in_a_summary() {
    let tests = run_with_reasons(100, "said\n");
    let lines = [damaged().repeat(100), tests].concat();
    let summary = report(&["--format", "markdown"], &lines, 1);
    assert_eq!(summary.matches("\n- a damaged line says ").count(), 100);
    assert_eq!(summary.matches("\n| FAIL | suite 1 a |").count(), 100);
    assert!(!summary.contains(" more "), "{summary}");
}

#[test]
fn a_reason_in_a_summary_is_cut_and_the_end_of_its_output_follows() {
    let lines = run_with_output(&format!("first\n{}last\n", "<234567890\n".repeat(40_000)));
    // Half of 16,384 bytes has 745 lines, at the front and at the end. Without `--output whole` it is ten lines.
    for (options, first, left_out, lasts) in [
        (["--output", "whole"], "first\n", "\n(38512 lines)\n", 2),
        (
            ["--limit", "none"],
            "<234567890\n",
            "\nlast\n(39992 more lines of output)</pre>",
            1,
        ),
    ] {
        let summary = report(
            &[&["--format", "markdown"][..], &options].concat(),
            &lines,
            1,
        );
        assert!(summary.len() < GITHUB, "{}", summary.len());
        let first = first.replace('<', "&lt;");
        let reason = format!("<details><summary>FAIL suite 1 a</summary>\n\n<pre>\n{first}");
        assert_eq!(summary.matches(&reason).count(), 1, "{options:?}");
        assert_eq!(summary.matches(left_out).count(), 1, "{options:?}");
        assert_eq!(
            summary
                .matches("<summary>output, 40002 lines</summary>")
                .count(),
            1
        );
        assert_eq!(summary.matches("\nlast</pre>").count(), lasts);
        let page = report(&[&["--format", "html"][..], &options].concat(), &lines, 1);
        assert!(!page.contains(" lines)\n"), "{options:?}");
    }
    let at_most = run_with_output(&"1234567\n".repeat(2_048));
    let summary = report(&["--format", "markdown", "--output", "whole"], &at_most, 1);
    assert!(!summary.contains(" lines)\n") && !summary.contains("<summary>output"));
}

/// Returns a text of control characters, as JSON has it.
fn hostile(size: usize) -> String {
    "\\u0001".repeat(size)
}

#[test]
fn the_first_problem_and_the_first_failed_test_are_in_each_summary() {
    let controls = "\u{1}".repeat(100_000);
    let cargo = format!("{controls}\nerror: could not compile `{controls}` (lib)\n");
    let (name, said) = (hostile(2_000), hostile(200_000));
    let tests = format!(
        r#"{{ "type": "suite", "event": "started", "test_count": 1, "nextest": {{ "crate": "{name}", "test_binary": "b" }} }}
{{ "type": "test", "event": "started", "name": "{name}" }}
{{ "type": "test", "event": "failed", "name": "{name}", "message": "{said}", "stdout": "{said}" }}
"#
    );
    for options in [&["--output", "whole"][..], &["--limit", "none"], &[]] {
        let arguments = [&["--format", "markdown"], options].concat();
        let lines = [
            &cargo,
            "     Running x\n",
            &tests,
            &damaged().repeat(10_000),
        ]
        .concat();
        let summary = report(&arguments, &lines, 1);
        assert!(summary.len() < GITHUB, "{}", summary.len());
        assert!(summary.contains("\n- cargo: error: could not compile "));
        // The last of these lines counts those that are left out.
        let problems = summary.matches("\n- ").count() - 1;
        assert_eq!(problems + more(&summary, "problems"), 10_002);
        assert_eq!(summary.matches("\n| FAIL |").count(), 1, "{options:?}");
        assert_eq!(more(&summary, "failed tests"), 0, "{options:?}");
    }
}

#[test]
fn an_output_that_the_reason_shows_is_shown_once() {
    for form in ["html", "markdown"] {
        let text = report(&["--format", form], &run_with_output("said\n"), 1);
        assert!(!text.contains("<summary>output"), "{form}");
        let cut = run_with_output("first\nError: x\n");
        let text = report(&["--format", form, "--output", "short"], &cut, 1);
        assert!(
            text.contains("<summary>output, 2 lines</summary>"),
            "{form}"
        );
    }
}

#[test]
fn html_loads_nothing() {
    let page = report(&["--format", "html"], RUN, 1);
    assert!(
        page.starts_with(
            "<!DOCTYPE html>\n<html lang=\"en\">\n<head>\n<meta charset=\"utf-8\"/>\n"
        )
    );
    assert!(page.contains("default-src 'none'; style-src 'unsafe-inline'"));
    assert!(page.contains("<h1>Test report: <span class=\"word failed\">failed</span></h1>"));
    assert!(page.contains("<li>suite 1: 1 of 3 tests were not run</li>"));
    assert!(page.contains("<span>a|b &lt;c&gt;</span>"));
    let bold = |text: &str| format!("<span class=\"b\">{text}</span>");
    let (one, two) = (bold("\\u{1b}[K\u{fffd}"), bold("and *more*"));
    assert!(page.contains(&format!(
        "Error: \"x\" &amp; &lt;/pre&gt;{one}\n{two}</code></pre>"
    )));
    for absent in [
        "<script", "<link", "<img", "src=", "href=", "url(", "@import", "http:", "https:",
    ] {
        assert!(!page.contains(absent), "{absent}");
    }
}

#[test]
fn html_style_sheet_has_no_references() {
    let page = report(&["--format", "html"], RUN, 1);
    let (_, rest) = page
        .split_once("<style>")
        .expect("the page has a style sheet");
    let (style, _) = rest.split_once("</style>").expect("the style sheet ends");
    assert!(!style.contains(['&', '<', '>']));
}

#[test]
fn html_of_empty_names() {
    let run = "{ \"type\": \"suite\", \"event\": \"started\", \"test_count\": 1 }
{ \"type\": \"test\", \"event\": \"started\", \"name\": \"\" }
";
    let page = report(&["--format", "html"], run, 1);
    assert!(
        page.contains(
            "<span class=\"suite\">suite 1</span> <span></span></h3> <span class=\"short\">"
        ),
        "{page}"
    );
}
