//! What explains a failure of cargo.

use crate::reports::{GITHUB, OPTIONS, reported};
use deodarsieve_cli::report::Format;
use deodarsieve_cli::report::options::Options;

/// The output of a command that does not compile. A terminal does not show the escape.
const BROKEN: &str = "   Compiling a v0.1.0\n\
    error[E0308]: <T>\u{1b}[0m\n  --> src/lib.rs:1:2\n\
    error: could not compile `a` (lib) due to 1 previous error\n";

/// Checks that the report of `BROKEN` in a form has this part.
fn has(format: Format, part: &str) {
    let (text, _) = reported(OPTIONS, format, &[BROKEN]);
    assert!(text.contains(part), "{text}");
}

#[test]
fn each_form_has_what_the_compiler_said() {
    has(
        Format::Text,
        "cargo: error: could not compile `a` (lib) due to 1 previous error\n    \
         error[E0308]: <T>\n      --> src/lib.rs:1:2\n------------\n",
    );
    has(
        GITHUB,
        "::error::cargo: error: could not compile `a` (lib) due to 1 previous error%0A\
         error[E0308]: <T>%0A  --> src/lib.rs:1:2\n::notice::",
    );
    has(
        Format::Junit,
        " type=\"disagreement\">error[E0308]: &lt;T&gt;\n  --&gt; src/lib.rs:1:2</error>",
    );
    has(
        Format::Html,
        " due to 1 previous error<pre><code>error[E0308]: &lt;T&gt;\n  --&gt; src/lib.rs:1:2</code></pre></li>",
    );
    has(
        Format::Markdown,
        " due to 1 previous error\n\n<pre>\nerror[E0308]: &lt;T&gt;\n  --&gt; src/lib.rs:1:2</pre>\n\n",
    );
    has(
        Format::Json,
        "\"why\":\"error[E0308]: <T>\\n  --> src/lib.rs:1:2\"",
    );
}

/// How `text` says to get lines of a harness.
const ADVICE: &str = "    cargo test writes such lines with: \
    RUSTC_BOOTSTRAP=1 cargo test -- -Z unstable-options --format json\n    \
    test-report -- cargo test does this by itself\n";

/// Checks the text up to the rule for a test program that failed after these lines, or before those after the failure.
fn explains(before: &str, after: &str, why: &str) {
    let lines = format!("{before}error: test failed, to rerun pass `--lib`\n{after}");
    let options = Options {
        limit: 1,
        ..OPTIONS
    };
    let (text, _) = reported(options, Format::Text, &[&lines]);
    let wanted =
        format!("cargo: error: test failed, to rerun pass `--lib`\n{why}{ADVICE}------------\n");
    assert!(text.starts_with(&wanted), "{text}");
}

#[test]
fn the_prints_before_a_failure_explain_it() {
    let cause = "Caused by:\n  signal: 6\n";
    explains("", "", "");
    explains("", cause, "      signal: 6\n");
    explains(
        "checks 2 files\n1 differs\n",
        cause,
        "    checks 2 files\n    1 differs\n",
    );
    explains(
        "thread 'a' (1) panicked at src/a.rs:1:2:\nno money\nthread 'main' (2) panicked at src/b.rs:3:4:\njoin\n",
        cause,
        "    thread 'a' (1) panicked at src/a.rs:1:2:\n    no money\n    \
         thread 'main' (2) panicked at src/b.rs:3:4:\n    join\n",
    );
    explains(
        "old\n     Running tests/a.rs (target/debug/deps/a-0123456789abcdef)\n",
        cause,
        "      signal: 6\n",
    );
}

#[test]
fn only_the_first_failure_before_all_events_has_the_advice() {
    let failed = "error: test failed, to rerun pass `--lib`\n";
    let line = format!("cargo: {failed}");
    let suite = "{\"type\":\"suite\",\"event\":\"started\",\"test_count\":0}\n\
        {\"type\":\"suite\",\"event\":\"ok\",\"passed\":0,\"failed\":0}\n";
    let written = |files: &[&str]| {
        let (text, _) = reported(OPTIONS, Format::Text, files);
        let (before, _) = text.split_once("------------\n").expect("a summary");
        before.to_owned()
    };
    let twice = format!("{failed}{failed}");
    assert_eq!(written(&[&twice]), format!("{line}{ADVICE}{line}"));
    assert_eq!(
        written(&[failed, failed]),
        format!("{line}{ADVICE}{line}{ADVICE}")
    );
    assert_eq!(written(&[&format!("{suite}{failed}")]), line);
    assert_eq!(
        written(&[&format!("{failed}warning: a print\n{suite}")]),
        line
    );
    let heading = "     Running tests/a.rs (target/debug/deps/a-46e3cc0ad64614af)\n";
    let followed = format!("{failed}{heading}{suite}{failed}");
    assert_eq!(written(&[&followed]), format!("{line}{ADVICE}{line}"));
    let other = "error: doctest failed, to rerun pass `--doc`\n";
    assert_eq!(written(&[other]), format!("cargo: {other}"));
}
