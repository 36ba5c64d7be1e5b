//! The arguments of the programs.

mod options;

use clap::{Arg, Command, ValueHint, value_parser};
use options::with_options;
use std::ffi::OsString;

/// The text of `run-digest --help` after the options.
const AFTER_DIGEST_HELP: &str = "\
Both commands read standard input. Without a command, `count` is run.

This input of `count` describes a run of 2 tests and no setup scripts that was
not cancelled (`-`). Each `test` line has the results of the test's attempts,
separated by commas. ` slow` after them says that the last attempt was slow:
  run 2 0 -
  test fail,pass
  test fail slow

Exit status:
  0  count: the run succeeded; extract: an explanation was found
  1  count: the run did not succeed; extract: none was found
  2  an argument or a line is invalid
  3  reading or writing failed";

/// The most columns of the help.
const HELP_WIDTH: usize = 100;

/// The first line of the help of `test-report`.
const REPORT_ABOUT: &str = "Reports which tests of a run failed, and why";

/// How `test-report` is called.
const REPORT_USAGE: &str = "\
test-report [OPTIONS] -- COMMAND [ARG]...
       test-report [OPTIONS] [FILE]...";

/// The first line of the help of `cargo-test-report`.
const CARGO_ABOUT: &str = "Runs `cargo test`, and reports which tests failed, and why";

/// How `cargo-test-report` is called.
const CARGO_USAGE: &str = "cargo test-report [OPTIONS] [ARG]... [-- [ARG]...]";

/// The text of `test-report --help` between the options and the exit statuses. Only prose is wrapped by clap.
const AFTER_REPORT_HELP: &str = "\
Before a test runs, folders of files are made, old files are removed, and a file that cannot be written ends the \
program. --markdown adds to its file instead. Files are written at the end, and that of --save as the lines come.

`cargo test`, `cargo bench`, `cargo nextest run` and cargo's aliases for them get the arguments that make them write \
JSON. Nothing is compiled anew for this, unless your settings of cargo or a variable name a runner or a rustdoc. Any \
other COMMAND is run as it is. Lines that are no events, such as the compiler's messages, go to standard error.

In a pipe, `set -o pipefail` makes the pipe fail if the test command does:
  RUSTC_BOOTSTRAP=1 cargo test --no-fail-fast -- \\
    -Z unstable-options --format json 2>&1 | test-report
  NEXTEST_EXPERIMENTAL_LIBTEST_JSON=1 \\
    cargo nextest run --message-format libtest-json 2>&1 | test-report

Examples:
  test-report -- cargo test                     run all tests
  test-report --failed -- cargo test            run again what failed
  test-report --retries 2 -- cargo test         find flaky tests
  test-report -- cargo nextest run              run all tests with nextest
  cargo test-report -p money                    test-report -- cargo test -p money
  test-report --html report.html -- cargo test  the text, and a page for a browser
  test-report --junit junit.xml -- cargo test   the text, and a file for a build server
  test-report --format names run.jsonl          the failed tests of a run in a file";

/// The exit statuses of `test-report` in `--help`.
const REPORT_STATUSES: &str = "\
Exit status:
  0  the run succeeded; with `--no-tests pass` also if no test ran
  1  the run did not succeed: a test failed or did not run, no test ran, the
     build or the command failed, or there is another contradiction
  2  an argument is invalid or not possible for this run, or the file of an
     option is standard output, is read, or is the file of another option
  3  reading or writing failed, a file cannot be opened or written, or a number
     is too large to count";

/// The text of `cargo test-report --help` between the options and the exit statuses.
const AFTER_CARGO_HELP: &str = "\
It is the same as `test-report [OPTIONS] -- cargo test [ARG]..`: `test-report --help` says more.

Examples:
  cargo test-report                              run all tests
  cargo test-report --failed                     run again what failed
  cargo test-report --html report.html -p money  one package, and a page for a browser
  cargo test-report -p money -- tests::adds      one test of one package";

/// Returns the arguments that `run-digest` takes.
pub fn run_digest() -> Command {
    let count = Command::new("count")
        .about("Count the tests and setup scripts of a run. The input has a line for each");
    let extract =
        Command::new("extract").about("Find the part of a test's output that explains its failure");
    Command::new("run-digest")
        .version(env!("CARGO_PKG_VERSION"))
        .about("Counts the tests of a run, or finds why a test failed")
        .subcommand(count)
        .subcommand(extract)
        .disable_help_subcommand(true)
        .after_help(AFTER_DIGEST_HELP)
}

/// Returns the arguments that `test-report` takes.
pub fn test_report() -> Command {
    let file = Arg::new("file")
        .value_name("FILE")
        .num_args(0..)
        .value_hint(ValueHint::FilePath)
        .help("The JSON lines of a run, in one file or several; standard input if absent (which a line says on a terminal) or `-`");
    let command = words("command", "COMMAND")
        .num_args(1..)
        .conflicts_with("file")
        .value_hint(ValueHint::CommandWithArguments)
        .help("The command that runs the tests, and its arguments, in place of files");
    let program = Command::new("test-report")
        .about(REPORT_ABOUT)
        .override_usage(REPORT_USAGE)
        .after_long_help(format!("{AFTER_REPORT_HELP}\n\n{REPORT_STATUSES}"));
    reporting(program, [file, command])
}

/// Returns the arguments that `cargo-test-report` takes, which cargo starts for `cargo test-report`.
pub fn cargo_test_report() -> Command {
    let argument = words("argument", "ARG")
        .num_args(0..)
        .help("The arguments of `cargo test`: all that are not options here, and from `--` on those of the tests");
    let program = Command::new("cargo-test-report")
        .bin_name("cargo test-report")
        .about(CARGO_ABOUT)
        .override_usage(CARGO_USAGE)
        .after_long_help(format!("{AFTER_CARGO_HELP}\n\n{REPORT_STATUSES}"));
    reporting(program, [argument])
}

/// Returns a program with these arguments, which only `--help` shows, and with the options of a report.
fn reporting<const N: usize>(program: Command, arguments: [Arg; N]) -> Command {
    let arguments = arguments.map(|argument| argument.hide_short_help(true));
    let program = program.version(env!("CARGO_PKG_VERSION"));
    with_options(program.max_term_width(HELP_WIDTH).args(arguments))
}

/// Returns the argument that takes all words after `--`.
fn words(name: &'static str, value: &'static str) -> Arg {
    Arg::new(name)
        .value_name(value)
        .last(true)
        .value_parser(value_parser!(OsString))
}
