//! Arguments of both programs: those that are refused, `--help` and `--version`.

use crate::common::{self, Folder, assert_output, end_of_text, run};
use std::process::Output;

/// A run of one test that passes.
const PASSED: &str = "\
{ \"type\": \"suite\", \"event\": \"started\", \"test_count\": 1 }
{ \"type\": \"test\", \"event\": \"started\", \"name\": \"adds\" }
{ \"type\": \"test\", \"name\": \"adds\", \"event\": \"ok\" }
{ \"type\": \"suite\", \"event\": \"ok\", \"passed\": 1, \"failed\": 0 }
";

/// What `run-digest` writes to standard error if an argument is invalid.
const USAGE: &str = "usage: run-digest extract|count\n";

/// Returns standard output as text, and asserts that the program succeeded without a message.
fn stdout_of(output: &Output) -> &str {
    assert_eq!(output.status.code(), Some(0));
    assert_eq!(output.stderr, b"");
    str::from_utf8(&output.stdout).expect("the text is UTF-8")
}

/// Returns an argument that is not UTF-8.
#[cfg(unix)]
fn not_utf8() -> std::ffi::OsString {
    use std::os::unix::ffi::OsStringExt;
    std::ffi::OsString::from_vec(b"caf\xe9".to_vec())
}

#[test]
fn test_report_refuses_arguments() {
    let refused: [&[&str]; 7] = [
        &["--nothing"],
        &["-x"],
        &["--format", ""],
        &["--junit"],
        &["--limit"],
        &["--limit", "-1"],
        &["--raw=yes"],
    ];
    for arguments in refused {
        assert_refused(arguments);
    }
}

/// Asserts that a message refuses arguments, and that nothing is read.
fn assert_refused(arguments: &[&str]) {
    let output = run("test-report", arguments, PASSED.as_bytes());
    assert_eq!(output.status.code(), Some(2), "{arguments:?}");
    assert_eq!(output.stdout, b"", "{arguments:?}");
    assert!(output.stderr.starts_with(b"error: "), "{arguments:?}");
}

#[test]
fn test_report_takes_each_option_once_and_only_its_values() {
    for option in OPTIONS.map(|option| option.split_once(" <")) {
        let Some((option, kind)) = option else {
            continue;
        };
        let value = match kind {
            "FORM>" => "text",
            "HOW>" => "whole",
            "LEVEL>" | "ACTION>" => "pass",
            "WHEN>" if option.ends_with("output") => "final",
            "WHEN>" => "never",
            _ => "0",
        };
        assert_refused(&[option, value, option, value]);
        // The messages for these two values are the program's own, and a file may have any name.
        if !["FILE>", "BYTES>", "SECONDS>"].contains(&kind) {
            assert_refused(&[option, "other"]);
        }
    }
    for flag in ["--raw", "--failed"] {
        assert_refused(&[flag, flag]);
    }
}

#[test]
fn test_report_refuses_numbers() {
    let bytes = "neither a number of bytes nor `none`";
    let seconds =
        "not a number of seconds such as 60 or 2.5, with at most nine digits before the point";
    // The last value of each option is empty.
    let refused = [
        ("--limit", "many 18446744073709551616 None ", bytes),
        ("--slow", "late 1e3 .5 1. 1000000000 ", seconds),
    ];
    for (option, values, what) in refused {
        for value in values.split(' ') {
            let output = run("test-report", &[option, value], PASSED.as_bytes());
            let message = format!("test-report: {option} {value}: {what}\n");
            assert_output(&output, b"", message.as_bytes(), 2, &message);
        }
    }
    // The lines of a run have numbers of attempts up to 1,000.
    let output = run("test-report", &["--retries", "1000"], PASSED.as_bytes());
    let message = String::from_utf8_lossy(&output.stderr);
    let why = "value '1000' for '--retries <N>': 1000 is not in 0..=999\n";
    assert!(message.contains(why), "{message}");
    assert_eq!(output.status.code(), Some(2));
}

#[test]
fn test_report_takes_arguments() {
    let taken: [&[&str]; 14] = [
        &[],
        &["--format", "text"],
        &["--format=text", "--color=never", "--no-tests=fail"],
        &["--color", "auto"],
        &["--no-tests", "pass"],
        &["--progress", "auto"],
        &["--progress=never"],
        &["-"],
        &["--raw"],
        &["--limit", "0"],
        &["--limit=18446744073709551615", "-"],
        &["--raw", "--limit", "7", "-"],
        &["--limit", "none"],
        &["--slow", "0.5"],
    ];
    let summary =
        "1 tests run: 1 passed (0 flaky), 0 failed (0 timed out, 0 crashed), 0 skipped, 0 not run";
    let report = end_of_text("", "1 passed", summary, "success");
    for arguments in taken {
        let output = run("test-report", arguments, PASSED.as_bytes());
        let what = format!("{arguments:?}");
        assert_output(&output, report.as_bytes(), b"", 0, &what);
    }
}

#[test]
fn run_digest_refuses_arguments() {
    let refused: [&[&str]; 6] = [
        &["frob"],
        &["count", "extract"],
        &["extract", "-"],
        &["--nothing"],
        &["-"],
        &[""],
    ];
    for arguments in refused {
        let output = run("run-digest", arguments, b"run 0 0 -\n");
        assert_output(&output, b"", USAGE.as_bytes(), 2, &format!("{arguments:?}"));
    }
}

#[test]
fn run_digest_counts_without_arguments() {
    let counted = run("run-digest", &["count"], b"run 1 0 -\ntest pass\n");
    let plain = run("run-digest", &[] as &[&str], b"run 1 0 -\ntest pass\n");
    assert_eq!(stdout_of(&plain), stdout_of(&counted));
}

#[cfg(unix)]
#[test]
fn arguments_that_are_not_utf8_are_refused() {
    let output = run("run-digest", &[not_utf8()], b"");
    assert_output(&output, b"", USAGE.as_bytes(), 2, "run-digest");
    let output = run("test-report", &[not_utf8()], b"");
    let message = b"test-report: an argument is not UTF-8\n";
    assert_output(&output, b"", message, 2, "test-report");
}

/// Each option that `test-report --help` shows, with its value, in order.
const OPTIONS: [&str; 27] = [
    "--failed",
    "--retries <N>",
    "--compare <FILE>",
    "--format <FORM>",
    "--junit <FILE>",
    "--html <FILE>",
    "--markdown <FILE>",
    "--json <FILE>",
    "--output <HOW>",
    "--status-level <LEVEL>",
    "-h, --help",
    "-V, --version",
    "--retries-max <N>",
    "--no-tests <ACTION>",
    "--names <FILE>",
    "--save <FILE>",
    "--final-status-level <LEVEL>",
    "--failure-output <WHEN>",
    "--success-output <WHEN>",
    "--slow <SECONDS>",
    "--slowest <N>",
    "--limit <BYTES>",
    "--raw",
    "--color <WHEN>",
    "--progress <WHEN>",
    "--others <WHEN>",
    "--annotations <WHEN>",
];

/// Returns the lines of a help, and asserts that none has more than these columns.
fn help_of(program: &str, flag: &str, columns: usize) -> Vec<String> {
    let output = run(program, &[flag], b"");
    let lines: Vec<_> = stdout_of(&output).lines().map(str::to_owned).collect();
    let too_long: Vec<_> = lines.iter().filter(|line| line.len() > columns).collect();
    assert!(too_long.is_empty(), "{program} {flag}: {too_long:?}");
    lines
}

/// Returns the lines that begin with an option, without the space before it. The lines of its text have more.
fn options_of(lines: &[String]) -> Vec<&str> {
    let is_option = |line: &&String| line.starts_with("      --") || line.starts_with("  -");
    lines
        .iter()
        .filter(is_option)
        .map(|line| line.trim_start())
        .collect()
}

#[test]
fn the_short_help_is_one_screen_with_the_first_ten_options() {
    for program in ["test-report", "cargo-test-report"] {
        let lines = help_of(program, "-h", 80);
        assert!(lines.len() <= 20, "{program}: {lines:?}");
        let options = options_of(&lines);
        assert_eq!(options.len(), 12, "{program}: {options:?}");
        for (line, option) in options.iter().zip(OPTIONS) {
            let text = line.strip_prefix(option).expect(line);
            assert!(text.starts_with("  ") && text.trim().len() > 10, "{line}");
        }
    }
}

#[test]
fn the_long_help_has_each_option_once_and_no_long_line() {
    for program in ["test-report", "cargo-test-report"] {
        let lines = help_of(program, "--help", 100);
        assert_eq!(options_of(&lines), OPTIONS, "{program}");
        assert!(lines.iter().any(|line| line == "Examples:"), "{program}");
        let statuses = lines.iter().position(|line| line == "Exit status:");
        let statuses = &lines[statuses.expect("the statuses are there")..];
        for status in 0..4 {
            let start = format!("  {status}  ");
            assert!(
                statuses.iter().any(|line| line.starts_with(&start)),
                "{program}: {status}"
            );
        }
    }
}

#[test]
fn the_long_help_names_each_value() {
    let lines = help_of("test-report", "--help", 100);
    let help = lines.join(" ");
    let text_of = |option: &str| {
        let (_, after) = help.split_once(option).expect(option);
        after
            .split("       --")
            .next()
            .unwrap_or_default()
            .to_owned()
    };
    for (option, values) in [
        (
            "--format <FORM>",
            "text github names junit html markdown json",
        ),
        ("--output <HOW>", "auto short whole"),
        (
            "--status-level <LEVEL>",
            "none fail retry slow leak pass skip all",
        ),
        (
            "--final-status-level <LEVEL>",
            "none fail flaky retry slow skip leak pass all",
        ),
        (
            "--failure-output <WHEN>",
            "immediate final immediate-final never",
        ),
        ("--no-tests <ACTION>", "fail pass"),
        ("--color <WHEN>", "auto always never"),
        ("--progress <WHEN>", "auto always never"),
        ("--others <WHEN>", "auto always never"),
        ("--annotations <WHEN>", "auto github always never"),
        ("--limit <BYTES>", "none 4096"),
    ] {
        let text = text_of(option);
        let words: Vec<_> = text
            .split(|c: char| !c.is_alphanumeric() && c != '-')
            .collect();
        for value in values.split(' ') {
            assert!(words.contains(&value), "{option}: {value} is not in {text}");
        }
    }
}

#[test]
fn the_help_of_run_digest_names_its_commands() {
    for flag in ["--help", "-h"] {
        let help = help_of("run-digest", flag, 100).join("\n");
        for part in ["Usage: run-digest [COMMAND]", "count", "extract"] {
            assert!(help.contains(part), "{part} is not in {help}");
        }
    }
}

#[test]
fn version_is_that_of_the_package() {
    for program in ["run-digest", "test-report"] {
        for flag in ["--version", "-V"] {
            let output = run(program, &[flag], b"");
            let version = format!("{program} {}\n", env!("CARGO_PKG_VERSION"));
            assert_eq!(stdout_of(&output), version);
        }
    }
}

#[test]
fn a_command_without_the_two_hyphens_is_refused() {
    let folder = Folder::new("hyphens");
    for (arguments, line) in [
        (&["cargo", "test"][..], "test-report -- cargo test"),
        (
            &["--raw", "cargo", "nextest", "run"],
            "test-report -- cargo nextest run",
        ),
    ] {
        let mut command = common::command("test-report", arguments);
        let output = command.current_dir(&folder.0).output();
        let output = output.expect("the program runs");
        let message = format!("test-report: to run a command: {line}\n");
        common::assert_output(&output, b"", message.as_bytes(), 3, line);
    }
    // A file of this name is a file.
    std::fs::write(folder.file("cargo"), "").expect("the folder is there");
    let mut command = common::command("test-report", &["cargo"]);
    let output = command.current_dir(&folder.0).output();
    assert_eq!(output.expect("the program runs").status.code(), Some(1));
}
