//! What is reported of a build that failed, given what cargo 1.95 wrote about it. The samples are whole outputs of
//! `cargo test --no-run --message-format json`, with another folder and without the explanations of codes.

use deodarsieve::FinalStatusLevel;
use deodarsieve_cli::cargo_message::CargoMessage;
use deodarsieve_cli::report::build::{CompilerMessages, FailedBuild};
use deodarsieve_cli::report::options::Options;
use deodarsieve_cli::report::{Files, Format, Report};
use deodarsieve_run::{CommandEnd, SuiteNames};
use serde_json::Value;
use std::collections::VecDeque;

/// A library whose unit tests have an error more.
const TRACKER: &str = include_str!("samples/cargo-messages/tracker.jsonl");

/// A library that compiles, and whose unit tests have a lint.
const LEDGER: &str = include_str!("samples/cargo-messages/ledger.jsonl");

/// A program with three errors in one macro of the standard library.
const TELLER: &str = include_str!("samples/cargo-messages/teller.jsonl");

/// An integration test with an error, and a library with a warning.
const BOOTH: &str = include_str!("samples/cargo-messages/booth.jsonl");

/// A build script with an error.
const VAULT: &str = include_str!("samples/cargo-messages/vault.jsonl");

/// The options of a report.
const OPTIONS: Options = Options {
    final_status_level: FinalStatusLevel::Fail,
    ..Options::DEFAULT
};

/// Returns the messages in an output of cargo.
fn messages_of<'a>(lines: impl Iterator<Item = &'a str>) -> CompilerMessages {
    let mut messages = CompilerMessages::default();
    for line in lines {
        messages.on_line(line.as_bytes());
    }
    messages
}

/// Returns a report in this form.
fn new_report(format: Format, options: Options) -> Report {
    Report::new(options, format, Files::default(), u64::MAX, VecDeque::new())
}

/// Returns the rest of a report of a run that failed.
fn rest_of(report: Report, end: Option<CommandEnd>) -> String {
    let mut output = Vec::new();
    let ended = report.finish(end, &mut output);
    assert_eq!(ended.map(|ended| ended.status).ok(), Some(1));
    String::from_utf8(output).expect("the report is text")
}

/// Returns the report of a build that failed, in this form, with options.
fn report_with(build: FailedBuild, format: Format, options: Options) -> String {
    let mut report = new_report(format, options);
    report.start_command(SuiteNames::new());
    let end = build.end.clone();
    report.fail_build(build);
    rest_of(report, end)
}

/// Returns the same if the errors of the compiler are on standard error.
fn report_beside_errors(build: FailedBuild, format: Format) -> String {
    let mut report = new_report(format, OPTIONS);
    report.set_errors_are_passed_on(true);
    report.start_command(SuiteNames::new());
    let end = build.end.clone();
    report.fail_build(build);
    rest_of(report, end)
}

/// Returns a build that failed with these messages.
fn failed(messages: CompilerMessages) -> FailedBuild {
    let words = "error: could not compile".to_string();
    FailedBuild {
        messages,
        end: Some(CommandEnd::Error { code: 101, words }),
    }
}

/// Returns the report of an output of cargo in this form. A saved run with it has the same report.
fn report(sample: &str, format: Format) -> String {
    let report = report_with(failed(messages_of(sample.lines())), format, OPTIONS);
    assert_eq!(saved_report(sample, FAILED, format), report);
    report
}

/// The first and the last line of a saved run whose build failed.
const STARTED: &str = r#"{"type":"command","event":"started"}"#;
const FAILED: &str =
    r#"{"type":"command","event":"ended","status":101,"error":"error: could not compile"}"#;

/// Returns the report of a saved run with these lines between its first and its last one. None of them is passed on.
fn saved_report(lines: &str, last: &str, format: Format) -> String {
    let mut report = new_report(format, OPTIONS);
    let (mut output, mut others) = (Vec::new(), Vec::new());
    for line in [STARTED].into_iter().chain(lines.lines()).chain([last]) {
        let taken = report.on_line(line.as_bytes(), &mut output, &mut others);
        taken.expect("the numbers fit");
    }
    assert!(output.is_empty() && others.is_empty());
    rest_of(report, None)
}

#[test]
fn each_target_has_a_line_and_its_errors_below() {
    let cases = [
        (
            TRACKER,
            "\
could not compile tracker (lib test): 3 errors
    src/lib.rs:3:14: error[E0425]: cannot find function `rate` in this scope
    src/lib.rs:7:5: error[E0308]: mismatched types
    src/lib.rs:12:26: error[E0425]: cannot find function `missing` in this scope
",
        ),
        (
            LEDGER,
            "\
could not compile ledger (lib test): 1 error
    src/lib.rs:10:9: error[unused_variables]: unused variable: `rate`
",
        ),
        (
            TELLER,
            "\
could not compile teller (bin \"teller\" test): 3 errors
    src/main.rs:4:5: error[E0369]: binary operation `==` cannot be applied to type `Coin`
    src/main.rs:4:5: error[E0277]: `Coin` doesn't implement `Debug`
    src/main.rs:4:5: error[E0277]: `Coin` doesn't implement `Debug`
",
        ),
        (
            BOOTH,
            "\
could not compile booth (test \"it\"): 1 error
    tests/it.rs:3:12: error[E0425]: cannot find function `g` in crate `booth`
",
        ),
        (
            VAULT,
            "\
could not compile vault (build script): 1 error
    build.rs:1:13: error[E0425]: cannot find function `none` in this scope
",
        ),
    ];
    for (sample, text) in cases {
        let wanted = format!("{text}outcome failed\n");
        assert_eq!(report(sample, Format::Text), wanted);
    }
    let all = [VAULT, TRACKER, BOOTH].concat();
    let lines = "\
could not compile vault (build script): 1 error
could not compile tracker (lib test): 3 errors
could not compile booth (test \"it\"): 1 error
outcome failed
";
    let build = failed(messages_of(all.lines()));
    assert_eq!(report_beside_errors(build, Format::Text), lines);
}

#[test]
fn an_error_that_came_once_is_of_the_library_itself_unless_that_is_built() {
    let first = TRACKER.lines().take(4);
    let text = report_with(failed(messages_of(first)), Format::Text, OPTIONS);
    assert!(
        text.starts_with("could not compile tracker (lib): 2 errors\n"),
        "{text}"
    );
    let without_library = LEDGER.lines().skip(1);
    let text = report_with(failed(messages_of(without_library)), Format::Text, OPTIONS);
    assert!(
        text.starts_with("could not compile ledger (lib): 1 error\n"),
        "{text}"
    );
    let built = |is_test: bool| {
        let library = LEDGER
            .lines()
            .next()
            .expect("it is built")
            .replace("ledger", "teller");
        let program = library.replace("[\"lib\"]", "[\"bin\"]");
        let program = program.replace("\"test\":false}", &format!("\"test\":{is_test}}}"));
        report(&[&program, "\n", TELLER].concat(), Format::Text)
    };
    let as_it_is = built(true);
    assert!(
        as_it_is.starts_with("could not compile teller (bin \"teller\"): 3"),
        "{as_it_is}"
    );
    let as_test = built(false);
    assert!(
        as_test.starts_with("could not compile teller (bin \"teller\" test): 3"),
        "{as_test}"
    );
}

#[test]
fn an_error_in_a_file_of_two_targets_is_of_both() {
    let other = BOOTH.replace("\"name\":\"it\"", "\"name\":\"other\"");
    let text = report(&[BOOTH, &other].concat(), Format::Text);
    let wanted = "\
could not compile booth (test \"it\"): 1 error
    tests/it.rs:3:12: error[E0425]: cannot find function `g` in crate `booth`
could not compile booth (test \"other\"): 1 error
    tests/it.rs:3:12: error[E0425]: cannot find function `g` in crate `booth`
outcome failed
";
    assert_eq!(text, wanted);
}

#[test]
fn a_text_comes_once_as_cargo_writes_it() {
    let mut messages = CompilerMessages::default();
    let mut texts = String::new();
    for line in TRACKER.lines() {
        if let Some(CargoMessage::CompilerMessage(message)) = CargoMessage::read(line.as_bytes()) {
            texts += &messages.on_message(line.as_bytes(), message);
        }
    }
    let wanted = "\
error[E0425]: cannot find function `rate` in this scope
 --> src/lib.rs:3:14
  |
3 |     amount * rate()
  |              ^^^^ not found in this scope

error[E0308]: mismatched types
 --> src/lib.rs:7:5
  |
6 | pub fn euros(amount: u64) -> String {
  |                              ------ expected `String` because of return type
7 |     amount
  |     ^^^^^^ expected `String`, found `u64`
  |
help: try using a conversion method
  |
7 |     amount.to_string()
  |           ++++++++++++

Some errors have detailed explanations: E0308, E0425.
For more information about an error, try `rustc --explain E0308`.
error[E0425]: cannot find function `missing` in this scope
  --> src/lib.rs:12:26
   |
12 |     assert_eq!(cents(1), missing());
   |                          ^^^^^^^ not found in this scope

";
    assert_eq!(texts, wanted);
}

#[test]
fn the_lines_that_are_kept_give_the_same_report() {
    for sample in [TRACKER, LEDGER, TELLER, BOOTH, VAULT] {
        let messages = messages_of(sample.lines());
        let kept: Vec<String> = messages.lines().map(str::to_string).collect();
        let compiler = sample
            .lines()
            .filter(|line| line.contains("\"compiler-message\""));
        let is_message = |line: &&String| line.contains("\"compiler-message\"");
        assert!(kept.iter().filter(is_message).eq(compiler));
        let again = messages_of(kept.iter().map(String::as_str));
        assert!(again.lines().eq(messages.lines()));
        for format in [Format::Text, Format::Json] {
            let report = report_with(failed(messages_of(sample.lines())), format, OPTIONS);
            let again = messages_of(kept.iter().map(String::as_str));
            assert_eq!(report_with(failed(again), format, OPTIONS), report);
        }
    }
    // The program of the library's unit tests is built too, but only the integration test has an error.
    let booth = messages_of(BOOTH.lines());
    assert!(
        booth
            .lines()
            .all(|line| line.contains("\"compiler-message\""))
    );
    let ledger = messages_of(LEDGER.lines());
    let reasons: Vec<_> = ledger
        .lines()
        .map(|line| line.contains("\"compiler-artifact\""))
        .collect();
    assert_eq!(reasons, [true, false]);
}

#[test]
fn json_has_the_code_the_message_and_the_place_of_each_error() {
    let json: Value = serde_json::from_str(&report(LEDGER, Format::Json)).expect("it is JSON");
    assert_eq!(json["outcome"], "failed");
    let wanted = serde_json::json!([{
        "kind": "compiler error",
        "line": "src/lib.rs:10:9: error[unused_variables]: unused variable: `rate`",
        "target": "ledger (lib test)",
        "code": "unused_variables",
        "message": "unused variable: `rate`",
        "place": {"file": "src/lib.rs", "line": "10", "column": "9"},
        "why": "\
error: unused variable: `rate`
  --> src/lib.rs:10:9
   |
10 |     let rate = 1;
   |         ^^^^ help: if this is intentional, prefix it with an underscore: `_rate`
   |
note: the lint level is defined here
  --> src/lib.rs:1:9
   |
 1 | #![deny(unused_variables)]
   |         ^^^^^^^^^^^^^^^^",
    }]);
    assert_eq!(json["problems"], wanted);
}

#[test]
fn no_form_has_the_colours_of_a_message() {
    let front = "\"rendered\":\"error: unused";
    let colored = "\"rendered\":\"\\u001b[1m\\u001b[91merror\\u001b[0m: unused";
    let sample = LEDGER.replace(front, colored);
    assert_ne!(sample, LEDGER);
    for format in [Format::Json, Format::Junit, Format::Html, Format::Markdown] {
        assert_eq!(report(&sample, format), report(LEDGER, format));
    }
}

#[test]
fn junit_has_an_error_for_each_error() {
    let xml = report(TRACKER, Format::Junit);
    let head = "<testsuites name=\"test-report\" tests=\"3\" failures=\"0\" errors=\"3\">";
    assert!(xml.contains(head), "{xml}");
    let error = "\
<testcase name=\"src/lib.rs:12:26: error[E0425]: cannot find function `missing` in this scope\" \
classname=\"test-report\" file=\"src/lib.rs\" line=\"12\">
<error message=\"src/lib.rs:12:26: error[E0425]: cannot find function `missing` in this scope\" \
type=\"compiler error\">error[E0425]: cannot find function `missing` in this scope
  --&gt; src/lib.rs:12:26
   |
12 |     assert_eq!(cents(1), missing());
   |                          ^^^^^^^ not found in this scope</error>
</testcase>
";
    assert!(xml.contains(error), "{xml}");
    assert_eq!(xml.matches("<error ").count(), 3, "{xml}");
}

#[test]
fn pages_and_summaries_have_each_error() {
    let page = report(TRACKER, Format::Html);
    let item = "<li>src/lib.rs:7:5: error[E0308]: mismatched types<pre><code>error[E0308]: mismatched types\n --&gt; src/lib.rs:7:5\n";
    assert!(page.contains(item), "{page}");
    assert_eq!(page.matches("<li>").count(), 3, "{page}");
    let summary = report(TRACKER, Format::Markdown);
    let item = "- src/lib.rs:7:5: error&#91;E0308&#93;: mismatched types\n\n<pre>\nerror[E0308]: mismatched types\n";
    assert!(summary.contains(item), "{summary}");
    assert_eq!(summary.matches("\n- ").count(), 3, "{summary}");
}

#[test]
fn an_annotation_is_at_the_place_of_its_error() {
    let annotations = Options {
        limit: 60,
        ..OPTIONS
    };
    let wanted = "\
::error file=tests/it.rs,line=3,col=12,title=could not compile booth (test \"it\")\
::error[E0425]: cannot find function `g` in crate `booth`%0A(13 lines)%0A3 +     booth::f();%0A  |
";
    let notice = "::notice::the tests could not be built, outcome failed\n";
    let format = Format::Github { annotations };
    assert_eq!(report(BOOTH, format), [wanted, notice].concat());
    let text = "could not compile booth (test \"it\"): 1 error\n";
    let build = failed(messages_of(BOOTH.lines()));
    let format = Format::Annotated { annotations };
    let report = report_beside_errors(build, format);
    assert_eq!(report, [text, wanted, "outcome failed\n", notice].concat());
}

#[test]
fn the_limit_holds_for_what_explains_an_error() {
    let short = Options {
        limit: 60,
        ..OPTIONS
    };
    let json = report_with(failed(messages_of(BOOTH.lines())), Format::Json, short);
    let why = "error[E0425]: cannot find function `g` in crate `booth`\\n(13 lines)\\n3 +     booth::f();\\n  |";
    assert!(json.contains(why), "{json}");
}

#[test]
fn cargo_says_why_if_the_compiler_does_not() {
    let with_error = |words: &str| CommandEnd::Error {
        code: 101,
        words: words.to_string(),
    };
    let cases = [
        (
            with_error("error: the lock file needs to be updated\n\nhelp: remove the flag"),
            r#""status":101,"error":"error: the lock file needs to be updated\n\nhelp: remove the flag""#,
            "cargo: error: the lock file needs to be updated\n    help: remove the flag\n",
        ),
        (
            with_error("error: no"),
            r#""status":101,"error":"error: no""#,
            "cargo: error: no\n",
        ),
        (
            CommandEnd::Status { code: 101 },
            r#""status":101"#,
            "cargo ended with status 101\n",
        ),
        (
            CommandEnd::Signal { number: 9 },
            r#""signal":9"#,
            "cargo ended by signal 9\n",
        ),
    ];
    for (end, members, line) in cases {
        let wanted = format!("{line}outcome failed\n");
        let build = FailedBuild {
            messages: CompilerMessages::default(),
            end: Some(end),
        };
        assert_eq!(report_beside_errors(build, Format::Text), wanted);
        let last = format!(r#"{{"type":"command","event":"ended",{members}}}"#);
        assert_eq!(saved_report("", &last, Format::Text), wanted);
    }
}

/// A program that passes.
const PASSING: &str = r#"{"type":"program","event":"started","name":"booth"}
{"type":"suite","event":"started","test_count":1}
{"type":"test","event":"started","name":"adds"}
{"type":"test","event":"ok","name":"adds"}
{"type":"suite","event":"ok","passed":1,"failed":0}
{"type":"program","event":"ended","status":0,"stderr":""}
"#;

#[test]
fn only_what_comes_before_the_first_program_is_of_the_build() {
    // A test can print what the compiler says.
    let mut report = new_report(Format::Text, OPTIONS);
    let (mut output, mut others) = (Vec::new(), Vec::new());
    let lines = [STARTED].into_iter().chain(PASSING.lines());
    for line in lines.chain(BOOTH.lines()).chain([FAILED]) {
        let taken = report.on_line(line.as_bytes(), &mut output, &mut others);
        taken.expect("the numbers fit");
    }
    let text = rest_of(report, None);
    assert!(
        text.starts_with("cargo: error: could not compile\n---"),
        "{text}"
    );
    assert!(text.contains("1 tests run: 1 passed"), "{text}");
    assert_eq!(others, BOOTH.as_bytes());
}

#[test]
fn what_a_cargo_wrote_without_a_first_line_is_passed_on() {
    let mut report = new_report(Format::Text, OPTIONS);
    let (mut output, mut others) = (Vec::new(), Vec::new());
    for line in BOOTH.lines() {
        let taken = report.on_line(line.as_bytes(), &mut output, &mut others);
        taken.expect("the numbers fit");
    }
    assert_eq!(others, BOOTH.as_bytes());
    let text = rest_of(report, None);
    assert!(
        text.starts_with("no line of the input is of a test run\n"),
        "{text}"
    );
}

#[test]
fn a_failed_build_of_one_file_leaves_the_report_of_the_others() {
    let mut report = new_report(Format::Text, OPTIONS);
    let (mut output, mut others) = (Vec::new(), Vec::new());
    let done = r#"{"type":"command","event":"ended","status":0}"#;
    let files: [Vec<&str>; 2] = [
        [STARTED]
            .into_iter()
            .chain(BOOTH.lines())
            .chain([FAILED])
            .collect(),
        [STARTED]
            .into_iter()
            .chain(PASSING.lines())
            .chain([done])
            .collect(),
    ];
    for (place, lines) in files.iter().enumerate() {
        if place > 0 {
            report.end_file(&mut output).expect("the numbers fit");
        }
        for line in lines {
            let taken = report.on_line(line.as_bytes(), &mut output, &mut others);
            taken.expect("the numbers fit");
        }
    }
    let text = String::from_utf8(output).expect("it is text") + &rest_of(report, None);
    let wanted = "\
could not compile booth (test \"it\"): 1 error
    tests/it.rs:3:12: error[E0425]: cannot find function `g` in crate `booth`
1 passed
------------
     Summary 1 tests run: 1 passed (0 flaky), 0 failed (0 timed out, 0 crashed), 0 skipped, 0 not run
outcome failed
";
    assert_eq!(text, wanted);
}

#[test]
fn names_have_no_errors() {
    assert_eq!(report(TRACKER, Format::Names), "");
}
