//! The program `test-report`, which `cargo-test-report` is too.

use crate::cargo_arguments::divided;
use crate::command::cargo_colors::cargo_color;
use crate::command::prepared::{Prepared, prepare};
use crate::command::stand_in::stand_in;
use crate::commands::{cargo_test_report, test_report};
use crate::earlier_run::read_earlier_run;
use crate::interrupt::Interrupt;
use crate::output_files::{OutputFiles, STANDARD_INPUT, SavedRun, refuse_conflicts, refuse_save};
use crate::program::{BAD_ARGUMENT, DEVICE_FAILED, Failure, KeepError, print_clap};
use crate::progress_line::ProgressLine;
use crate::report::comparison::EarlierRun;
use crate::report::fault::Fault;
use crate::report::options::{LIMIT, Options, OutputDisplay};
use crate::report::screen::{Screen, is_dumb_terminal, is_set};
use crate::report::{Ended, Files, Format, Report};
use crate::run_again::RunAgain;
use crate::run_input::{Input, PassOn, RunReader, Streams};
use crate::standard_streams::{StandardOutput, check_output};
use clap::{ArgMatches, Command};
use deodarsieve::{FinalStatusLevel, StatusLevel, TestOutputDisplay};
use deodarsieve_run::microseconds;
use std::cell::RefCell;
use std::env;
use std::ffi::OsString;
use std::io::{self, ErrorKind, IsTerminal};
use std::process::ExitCode;

/// The argument after which the command follows.
const BEFORE_COMMAND: &str = "--";

/// The message before standard input is read, if it is a terminal and nobody has asked for it.
const READING_TERMINAL: &str =
    "test-report: reading standard input; to run tests: test-report -- cargo test";

/// Returns the value of an option that has a default.
fn value<'a>(matches: &'a ArgMatches, name: &str) -> &'a str {
    matches.get_one::<String>(name).map_or("", String::as_str)
}

/// The default of `--slow` in microseconds.
const SLOW: u64 = 60_000_000;

/// Returns the limit that the arguments give, or `None` if `--limit` is absent.
fn limit_of(matches: &ArgMatches) -> Result<Option<usize>, Failure> {
    let Some(bytes) = matches.get_one::<String>("limit") else {
        return Ok(None);
    };
    if bytes == "none" {
        return Ok(Some(usize::MAX));
    }
    bytes.parse().map(Some).map_err(|_| {
        let message = format!("--limit {bytes}: neither a number of bytes nor `none`");
        Failure::new(BAD_ARGUMENT, message)
    })
}

/// Returns the options of the report.
fn options_of(matches: &ArgMatches) -> Result<Options, Failure> {
    let output = match value(matches, "output") {
        "short" => OutputDisplay::Short,
        "whole" => OutputDisplay::Whole,
        _ => OutputDisplay::Auto,
    };
    let limit = limit_of(matches)?;
    Ok(Options {
        limit: limit.unwrap_or_else(|| default_limit(output)),
        output,
        raw: matches.get_flag("raw"),
        color: match value(matches, "color") {
            "always" => true,
            "never" => false,
            _ => io::stdout().is_terminal() && !is_set("NO_COLOR") && !is_dumb_terminal(),
        },
        screen: Screen::of_standard_output(),
        status_level: status_level_of(matches),
        final_status_level: final_status_level_of(matches),
        failure_output: display_of(matches, "failure-output"),
        success_output: display_of(matches, "success-output"),
        passed_limit: limit.unwrap_or(usize::MAX),
        slowest: matches.get_one("slowest").copied().unwrap_or(0),
        no_tests_pass: value(matches, "no-tests") == "pass",
    })
}

/// Returns the level of the tests that have a line when they end.
fn status_level_of(matches: &ArgMatches) -> StatusLevel {
    match value(matches, "status-level") {
        "none" => StatusLevel::None,
        "retry" => StatusLevel::Retry,
        "slow" => StatusLevel::Slow,
        "leak" => StatusLevel::Leak,
        "pass" => StatusLevel::Pass,
        "skip" => StatusLevel::Skip,
        "all" => StatusLevel::All,
        _ => StatusLevel::Fail,
    }
}

/// Returns the level of the tests that are listed at the end.
fn final_status_level_of(matches: &ArgMatches) -> FinalStatusLevel {
    match value(matches, "final-status-level") {
        "none" => FinalStatusLevel::None,
        "fail" => FinalStatusLevel::Fail,
        "flaky" | "retry" => FinalStatusLevel::Flaky,
        "skip" => FinalStatusLevel::Skip,
        "leak" => FinalStatusLevel::Leak,
        "pass" => FinalStatusLevel::Pass,
        "all" => FinalStatusLevel::All,
        _ => FinalStatusLevel::Slow,
    }
}

/// Returns the display that an option names.
fn display_of(matches: &ArgMatches, option: &str) -> TestOutputDisplay {
    match value(matches, option) {
        "immediate-final" => TestOutputDisplay::ImmediateFinal,
        "final" => TestOutputDisplay::Final,
        "never" => TestOutputDisplay::Never,
        _ => TestOutputDisplay::Immediate,
    }
}

/// Returns the limit if `--limit` is absent. If outputs are shown as a whole, there is none.
fn default_limit(output: OutputDisplay) -> usize {
    match output {
        OutputDisplay::Auto | OutputDisplay::Short => LIMIT,
        OutputDisplay::Whole => usize::MAX,
    }
}

/// Returns the time in microseconds from which on a test is slow.
fn slow_of(matches: &ArgMatches) -> Result<u64, Failure> {
    let Some(seconds) = matches.get_one::<String>("slow") else {
        return Ok(SLOW);
    };
    microseconds(seconds.as_bytes()).ok_or_else(|| {
        let message = format!("--slow {seconds}: not a number of seconds such as 60 or 2.5, with at most nine digits before the point");
        Failure::new(BAD_ARGUMENT, message)
    })
}

/// Returns the options of annotations. If outputs are shown as a whole and `--limit` is absent, the annotations are those
/// of the default, because an annotation is a short message next to a line of the sources.
fn annotation_options(matches: &ArgMatches, options: Options) -> Options {
    if options.output != OutputDisplay::Whole || matches.contains_id("limit") {
        options
    } else {
        Options {
            limit: LIMIT,
            output: OutputDisplay::Auto,
            ..options
        }
    }
}

/// Returns true if the form `text` has annotations for GitHub between its lines.
fn has_annotations(matches: &ArgMatches) -> bool {
    match value(matches, "annotations") {
        "github" => true,
        "never" => false,
        _ => env::var_os("GITHUB_ACTIONS").is_some_and(|value| value == "true"),
    }
}

/// Returns true if a line on standard error shows the progress of the run.
fn shows_progress(matches: &ArgMatches) -> bool {
    match value(matches, "progress") {
        "always" => true,
        "never" => false,
        _ => io::stderr().is_terminal() && !is_dumb_terminal(),
    }
}

/// Returns which lines that are no events are passed on to standard error.
fn pass_on(matches: &ArgMatches) -> PassOn {
    match value(matches, "others") {
        "always" => PassOn::Always,
        "never" => PassOn::Never,
        _ => PassOn::Auto,
    }
}

/// Returns the files that the arguments ask for.
fn files_of(matches: &ArgMatches) -> Files {
    Files {
        junit: matches.contains_id("junit"),
        html: matches.contains_id("html"),
        markdown: matches.contains_id("markdown"),
        json: matches.contains_id("json"),
        names: matches.contains_id("names"),
    }
}

/// Reads the earlier run that the arguments name, if they do.
fn earlier_of(matches: &ArgMatches) -> Result<Option<EarlierRun>, Failure> {
    let path = matches.get_one::<String>("compare");
    path.map(|path| read_earlier_run(path)).transpose()
}

/// Makes the first Ctrl-C or SIGTERM not end the program.
fn catch_first_interrupt() -> Result<Interrupt, Failure> {
    Interrupt::catch_first().map_err(|error| {
        let message = "Ctrl-C cannot be caught";
        Failure::new(DEVICE_FAILED, message).caused_by(Some(error))
    })
}

/// Writes the report to standard output, and then the files. Returns the exit status.
fn write_report(
    matches: &ArgMatches,
    input: Input,
    (options, slow): (Options, u64),
    earlier: Option<EarlierRun>,
    interrupt: &Interrupt,
    output_files: &OutputFiles,
) -> Result<ExitCode, Failure> {
    let (format, files) = (format_of(matches, options), files_of(matches));
    let mut report = Report::new(options, format, files, slow, input.file_names());
    if let Some(earlier) = earlier {
        report.compare_with(earlier);
    }
    let shows_progress = shows_progress(matches);
    let line = RefCell::new(ProgressLine::new(io::stderr()));
    let saved = output_files.saved_run(interrupt)?;
    let writer = KeepError::new(StandardOutput::lock());
    let mut streams = Streams::new(writer, &line, saved);
    let reader = RunReader::new(
        report,
        &mut streams,
        pass_on(matches),
        interrupt,
        shows_progress,
        shows_progress || io::stderr().is_terminal(),
    );
    let ended = reader.report(input);
    line.borrow_mut().hide();
    write_files(ended, streams, interrupt, output_files)
}

/// Writes the files of a report that has ended. Returns the exit status, which is that of a failed device if a line that
/// is no event could not be passed on. If the reader of standard output has gone, no message is written to standard error.
fn write_files(
    ended: Result<Ended, Failure>,
    streams: Streams<KeepError<StandardOutput>>,
    interrupt: &Interrupt,
    output_files: &OutputFiles,
) -> Result<ExitCode, Failure> {
    let Streams {
        output,
        others,
        saved,
        ..
    } = streams;
    match ended {
        Ok(ended) => {
            output_files.write(&ended.files, interrupt)?;
            saved.map_or(Ok(()), SavedRun::finish)?;
            Ok(status_of(&ended, others.has_failed()))
        }
        Err(failure) => without_report(failure, output.into_writer().into_error()),
    }
}

/// Returns what follows from a report that could not be made. `error` is that of standard output, if there was one.
fn without_report(failure: Failure, error: Option<io::Error>) -> Result<ExitCode, Failure> {
    match error {
        Some(error) if error.kind() == ErrorKind::BrokenPipe => Ok(ExitCode::from(DEVICE_FAILED)),
        Some(error) => Err(failure.caused_by(Some(error))),
        None => Err(failure),
    }
}

/// Returns the exit status of a report that was written. `others_failed` is true if a line that is no event could not be
/// passed on.
fn status_of(ended: &Ended, others_failed: bool) -> ExitCode {
    ExitCode::from(if others_failed {
        DEVICE_FAILED
    } else {
        ended.status
    })
}

/// Returns the form of standard output that the arguments ask for.
fn format_of(matches: &ArgMatches, options: Options) -> Format {
    let annotations = annotation_options(matches, options);
    match value(matches, "format") {
        "github" => Format::Github { annotations },
        "names" => Format::Names,
        "junit" => Format::Junit,
        "html" => Format::Html,
        "markdown" => Format::Markdown,
        "json" => Format::Json,
        _ if has_annotations(matches) => Format::Annotated { annotations },
        _ => Format::Text,
    }
}

/// Writes the report that the arguments ask for, and returns the exit status. Before anything is read, it makes sure that
/// the report and the files can be written, that they do not mix, and that no old file is taken for a new one.
fn report_of(matches: &ArgMatches, input: Input) -> Result<ExitCode, Failure> {
    let shown = (options_of(matches)?, slow_of(matches)?);
    refuse_conflicts(matches, input.files())?;
    refuse_save(matches, input.why_unsaved())?;
    let earlier = earlier_of(matches)?;
    let again = RunAgain::of(matches);
    again.refuse(input.why_not_again(again.only_failed))?;
    let interrupt = catch_first_interrupt()?;
    let files = OutputFiles::open(matches, &interrupt)?;
    check_output().map_err(|error| Failure::from(Fault::Write).caused_by(Some(error)))?;
    write_report(matches, input, shown, earlier, &interrupt, &files)
}

/// Returns a command with what the arguments make of it.
fn prepared(matches: &ArgMatches, words: &[OsString]) -> Prepared {
    let mut prepared = prepare(words, cargo_color(value(matches, "color")));
    prepared.run_again(RunAgain::of(matches));
    prepared
}

/// Returns what `test-report` reads: the words after `--` are a command, and otherwise there are files.
fn input_of(matches: &ArgMatches) -> Input {
    if let Some(words) = matches.get_many::<OsString>("command") {
        let words: Vec<_> = words.cloned().collect();
        return Input::Command(Box::new(prepared(matches, &words)));
    }
    match matches.get_many::<String>("file") {
        Some(files) if files.len() > 0 => Input::Files {
            paths: files.cloned().collect(),
            message: None,
        },
        _ => Input::Files {
            paths: vec![STANDARD_INPUT.to_string()],
            message: io::stdin().is_terminal().then_some(READING_TERMINAL),
        },
    }
}

/// Returns the command of `cargo-test-report`, which reads `cargo test` with the arguments for it. cargo names itself in a
/// variable.
fn cargo_test(matches: &ArgMatches) -> Input {
    let cargo = env::var_os("CARGO").unwrap_or_else(|| "cargo".into());
    let words = matches
        .get_many::<OsString>("argument")
        .into_iter()
        .flatten();
    let words = [cargo, "test".into()].into_iter().chain(words.cloned());
    let words: Vec<_> = words.collect();
    Input::Command(Box::new(prepared(matches, &words)))
}

/// Returns the arguments without the first one, if it is the program's name as a subcommand: cargo starts
/// `cargo-test-report test-report ..` for `cargo test-report ..`.
fn without_subcommand(mut arguments: Vec<OsString>) -> Vec<OsString> {
    if arguments.get(1).is_some_and(|word| word == "test-report") {
        arguments.remove(1);
    }
    arguments
}

/// Refuses arguments that are not UTF-8. The words of a command may have any bytes.
fn refuse_other_text(arguments: &[OsString]) -> Result<(), Failure> {
    let mut own = arguments.iter().take_while(|word| *word != BEFORE_COMMAND);
    if own.all(|word| word.to_str().is_some()) {
        Ok(())
    } else {
        Err(Failure::new(BAD_ARGUMENT, "an argument is not UTF-8"))
    }
}

/// Refuses arguments that end with `--`, where a command is missing.
fn refuse_no_command(arguments: &[OsString]) -> Result<(), Failure> {
    let at = arguments.iter().position(|word| word == BEFORE_COMMAND);
    if at.is_some_and(|at| at + 1 == arguments.len()) {
        return Err(Failure::new(BAD_ARGUMENT, "there is no command after `--`"));
    }
    Ok(())
}

/// Does what the arguments of a program ask for, and returns the exit status.
fn run(
    program: Command,
    arguments: Vec<OsString>,
    input_of: fn(&ArgMatches) -> Input,
) -> Result<ExitCode, Failure> {
    match program.try_get_matches_from(arguments) {
        Ok(matches) => report_of(&matches, input_of(&matches)),
        Err(message) => print_clap(&message),
    }
}

/// Returns the exit status of `test-report` with these arguments, the first of which is the program's name.
pub fn test_report_with(arguments: Vec<OsString>) -> Result<ExitCode, Failure> {
    refuse_other_text(&arguments)?;
    refuse_no_command(&arguments)?;
    run(test_report(), arguments, input_of)
}

/// Returns the exit status of `cargo-test-report` with these arguments, the first of which is the program's name.
pub fn cargo_test_report_with(arguments: Vec<OsString>) -> Result<ExitCode, Failure> {
    let program = cargo_test_report();
    let arguments = divided(program.clone(), without_subcommand(arguments));
    refuse_other_text(&arguments)?;
    run(program, arguments, cargo_test)
}

/// Runs a program with the arguments of this process, and returns the exit status. If cargo started the process in
/// place of a test program or of rustdoc, it runs that one.
pub fn exit_code(program: fn(Vec<OsString>) -> Result<ExitCode, Failure>) -> ExitCode {
    let arguments: Vec<_> = env::args_os().collect();
    let own = arguments.get(1..).unwrap_or_default();
    stand_in(own)
        .unwrap_or_else(|| program(arguments))
        .unwrap_or_else(|failure| failure.exit("test-report: "))
}
