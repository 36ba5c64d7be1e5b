//! The options of a report. `-h` shows those that people use most, with `help`; `--help` shows all, with `long_help` if an
//! option has it. The completions have `help`, so that is one line.

use crate::attempts::MOST_ATTEMPTS;
use clap::builder::RangedU64ValueParser;
use clap::{Arg, ArgAction, Command, ValueHint, value_parser};

/// The most that `--retries` takes: a line of the run has a number of attempts.
const MOST_RETRIES: u64 = MOST_ATTEMPTS as u64 - 1;

/// The values of `--format`.
const FORMS: [&str; 7] = [
    "text", "github", "names", "junit", "html", "markdown", "json",
];

/// The values of `--status-level`.
const STATUS_LEVELS: [&str; 8] = [
    "none", "fail", "retry", "slow", "leak", "pass", "skip", "all",
];

/// The values of `--final-status-level`. `retry` is another name of `flaky`.
const FINAL_STATUS_LEVELS: [&str; 9] = [
    "none", "fail", "flaky", "retry", "slow", "skip", "leak", "pass", "all",
];

/// The values of `--failure-output` and `--success-output`.
const OUTPUT_DISPLAYS: [&str; 4] = ["immediate", "immediate-final", "final", "never"];

/// The values of options that look at a terminal or at the input.
const WHEN: [&str; 3] = ["auto", "always", "never"];

const FORMAT_HELP: &str = "\
Write the report in this form to standard output:
- text: for people, during the run (the default)
- github: annotations of a workflow on GitHub, those of failed tests at the end
- names: the names of failed tests, one a line, during the run
- junit: JUnit XML for build servers, at the end
- html: a page for a browser, at the end
- markdown: the summary of a workflow, at the end
- json: for other programs, at the end";

const OUTPUT_HELP: &str = "\
Show this much of the output of a failed test:
- auto: all within --limit, or what explains the failure and lines before it (the default)
- short: what explains the failure
- whole: all";

const STATUS_LEVEL_HELP: &str = "\
Write a line for each of these tests when it ends, in the form text:
- none: no test
- fail: failed tests (the default)
- retry, slow, leak: also flaky tests
- pass: also other tests that passed
- skip, all: also skipped tests";

const FINAL_STATUS_LEVEL_HELP: &str = "\
List these tests at the end of the form text:
- none: no test
- fail: failed tests
- flaky, retry: also flaky tests
- slow: also slow tests (the default)
- skip, leak: also skipped tests
- pass, all: also other tests that passed";

const FAILURE_OUTPUT_HELP: &str = "\
Show why tests failed, in the form text:
- immediate: when they end (the default)
- final: in the list at the end
- immediate-final: in both places
- never";

/// Adds the options of a report.
pub fn with_options(program: Command) -> Command {
    program
        .disable_help_flag(true)
        .disable_version_flag(true)
        .args(most_used())
        .args(about_the_program())
        .next_help_heading("Tests")
        .args(tests().map(only_in_long_help))
        .next_help_heading("Files")
        .args(files().map(only_in_long_help))
        .next_help_heading("Text")
        .args(text().map(only_in_long_help))
        .next_help_heading("Terminal and log")
        .args(terminal().map(only_in_long_help))
}

/// Returns the ten options that people use most.
fn most_used() -> [Arg; 10] {
    [
        flag("failed")
            .help("Run only the tests that did not pass last time")
            .long_help("Run only the tests that failed, crashed, were stopped or did not run last time; all tests if there are none. target/test-report/failed has their names"),
        number("retries", "N")
            .value_parser(RangedU64ValueParser::<usize>::new().range(..=MOST_RETRIES))
            .help("Run a failed test again, up to N times")
            .long_help("Run a failed test again, alone, up to N times (at most 999), when its program ends, and show it then. If it passes, it is flaky, and counts as passed. A program that crashed is not run again [default: 0]"),
        file("compare")
            .help("Say which failures are new since the run in FILE")
            .long_help("Say how many failures are new, still there or fixed since the run in FILE, which --save or --json wrote"),
        choice("format", "FORM", "text", FORMS)
            .help("text, github, names, junit, html, markdown or json")
            .long_help(FORMAT_HELP),
        file("junit").help("Also write JUnit XML to FILE"),
        file("html").help("Also write an HTML page to FILE"),
        file("markdown")
            .help("Also append Markdown to FILE")
            .long_help("Also append Markdown to FILE, such as $GITHUB_STEP_SUMMARY"),
        file("json").help("Also write the report as JSON to FILE"),
        choice("output", "HOW", "auto", ["auto", "short", "whole"])
            .help("Show this much output: auto, short or whole")
            .long_help(OUTPUT_HELP),
        choice("status-level", "LEVEL", "fail", STATUS_LEVELS)
            .help("List tests as they end: none, fail, pass, all ..")
            .long_help(STATUS_LEVEL_HELP),
    ]
}

/// Returns the options that ask what the program is. They are not clap's own, whose texts depend on its version.
fn about_the_program() -> [Arg; 2] {
    [
        Arg::new("help")
            .long("help")
            .short('h')
            .action(ArgAction::Help)
            .help("Show this; --help shows all, and exit statuses")
            .long_help("Show this, or with -h the options that are used most"),
        Arg::new("version")
            .long("version")
            .short('V')
            .action(ArgAction::Version)
            .help("Show the version"),
    ]
}

/// Returns the other options that say which tests run, and how a run without tests ends.
fn tests() -> [Arg; 2] {
    [
        number("retries-max", "N")
            .help("Run no test of a program again if more than N of its tests failed [default: 10]"),
        choice("no-tests", "ACTION", "fail", ["fail", "pass"])
            .help("End with status 1 (fail, the default) or 0 (pass) if no test ran and nothing else is wrong"),
    ]
}

/// Returns the other options that name files.
fn files() -> [Arg; 2] {
    [
        file("names").help("Also write the names of failed tests to FILE, one a line"),
        file("save").help("Also write the lines of a run of `cargo test` or `cargo bench` to FILE as they come. `test-report FILE` reads them. Without this option they are in target/test-report/last.jsonl"),
    ]
}

/// Returns the other options that say what the text shows of the tests.
fn text() -> [Arg; 7] {
    [
        choice("final-status-level", "LEVEL", "slow", FINAL_STATUS_LEVELS)
            .help("List these tests at the end")
            .long_help(FINAL_STATUS_LEVEL_HELP),
        choice("failure-output", "WHEN", "immediate", OUTPUT_DISPLAYS)
            .help("Show then why tests failed")
            .long_help(FAILURE_OUTPUT_HELP),
        choice("success-output", "WHEN", "never", OUTPUT_DISPLAYS)
            .help("Show the output of tests that passed, if the run has it; values as above. The default is never"),
        Arg::new("slow")
            .long("slow")
            .value_name("SECONDS")
            .value_hint(ValueHint::Other)
            .help("Count a test as slow if its time is at least SECONDS, a decimal number [default: 60]"),
        number("slowest", "N").help("Also list the N slowest tests at the end of the form text [default: 0]"),
        Arg::new("limit")
            .long("limit")
            .value_name("BYTES")
            .value_hint(ValueHint::Other)
            .help("Leave out lines in the middle of a reason that has more than BYTES bytes, unless it is none [default: 4096; with --output whole none]"),
        flag("raw").help("Write control characters and commands of CI systems in reasons as the tests wrote them, in the form text"),
    ]
}

/// Returns the options about what surrounds the program.
fn terminal() -> [Arg; 4] {
    [
        choice("color", "WHEN", "auto", WHEN)
            .help("Use colours: auto (on a terminal, unless NO_COLOR is set or TERM is dumb; the default), always or never"),
        choice("progress", "WHEN", "auto", WHEN)
            .help("Show the progress in a line on standard error: auto (on a terminal, the default), always or never"),
        choice("others", "WHEN", "auto", WHEN)
            .help("Pass lines that are no events on to standard error: auto (not those of files, the default), always or never"),
        choice("annotations", "WHEN", "auto", ["auto", "github", "never"])
            .help("Write annotations for GitHub in the form text: auto (if GITHUB_ACTIONS is true, the default), github (always) or never"),
    ]
}

/// Returns an option that `-h` does not show.
fn only_in_long_help(option: Arg) -> Arg {
    option.hide_short_help(true)
}

/// Returns an option without a value.
fn flag(name: &'static str) -> Arg {
    Arg::new(name).long(name).action(ArgAction::SetTrue)
}

/// Returns an option whose value is a number.
fn number(name: &'static str, value: &'static str) -> Arg {
    Arg::new(name)
        .long(name)
        .value_name(value)
        .value_parser(value_parser!(usize))
        .value_hint(ValueHint::Other)
}

/// Returns an option that has one of several values. Its help names them and the default.
fn choice<const N: usize>(
    name: &'static str,
    value: &'static str,
    default: &'static str,
    values: [&'static str; N],
) -> Arg {
    Arg::new(name)
        .long(name)
        .value_name(value)
        .value_parser(values)
        .default_value(default)
        .hide_default_value(true)
        .hide_possible_values(true)
}

/// Returns an option whose value is the path of a file.
fn file(name: &'static str) -> Arg {
    Arg::new(name)
        .long(name)
        .value_name("FILE")
        .value_hint(ValueHint::FilePath)
}
