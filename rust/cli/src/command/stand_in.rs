//! Takes the place of a test program and of rustdoc, so that a stable toolchain's test harness writes JSON, and so that
//! the run knows of each program how it ended.
//!
//! The harness accepts `-Z unstable-options` if `RUSTC_BOOTSTRAP` is set, whatever its value is. If the variable was
//! set for cargo, the packages whose build script watches it would be compiled anew. So cargo starts this program in
//! place of each test program and of rustdoc, and this program sets the variable for these alone.

use super::cargo_colors::CARGO_COLOR;
use super::harness::{
    ACCEPT_OPTIONS, BOOTSTRAP, HarnessArguments, TEST_ARGUMENT, Tested, missing_options,
};
use super::programs::{PROGRAMS, Plan, Retries};
use super::retries::Retrying;
use super::run_line::{MissingTests, ProgramLine, RunLine, StartedProgram};
use super::run_streams::RunStreams;
use super::system::{become_program, end_as};
use super::watching::watch;
use crate::program::Failure;
use crate::standard_streams::{StandardError, StandardOutput};
use std::borrow::Cow;
use std::collections::HashSet;
use std::env;
use std::ffi::{OsStr, OsString};
use std::io;
use std::path::Path;
use std::process::{Command, ExitCode, exit};

/// The first argument if the program is started in place of a test program. The test program and its arguments follow.
pub const AS_RUNNER: &str = "--as-runner";

/// The variable that is set for cargo if cargo starts the program in place of rustdoc. Rustdoc's arguments have no room
/// for a first one of this program.
pub const AS_RUSTDOC: &str = "TEST_REPORT_AS_RUSTDOC";

/// The variable that is set for stand-ins if this program sets cargo's one for colours. It has the value that the user has
/// given that one, or nothing.
pub const USERS_COLOR: &str = "TEST_REPORT_CARGO_TERM_COLOR";

/// The exit status if the test program or rustdoc cannot be started, as in a shell.
const NOT_STARTED: u8 = 127;

/// The options of rustdoc by which cargo passes a runner and its arguments. Each has a value.
const RUNNER_OPTIONS: [&str; 2] = ["--test-runtool", "--test-runtool-arg"];

/// The option with which rustdoc runs documentation tests. In cargo's order the file follows that has them.
const TEST: &str = "--test";

/// The variable in which cargo names the package of a program that it starts.
const PACKAGE: &str = "CARGO_PKG_NAME";

/// The option of the harness with which ignored tests run, too.
const INCLUDE_IGNORED: &str = "--include-ignored";

/// The option of the harness before the file to which it writes the results, and that it makes empty first.
const LOG_FILE: &str = "--logfile";

/// The arguments with which a harness lists something and runs no test.
const LISTS: [&str; 3] = ["--list", "--help", "-h"];

/// If the program was started in place of another one, runs that one and ends as that one did. Otherwise returns `None`.
/// `arguments` are those after the program's name.
///
/// Fails if the other program cannot be started.
pub fn stand_in(arguments: &[OsString]) -> Option<Result<ExitCode, Failure>> {
    match arguments {
        [first, program, rest @ ..] if first == AS_RUNNER => Some(run_program(program, rest)),
        _ if env::var_os(AS_RUSTDOC).is_some() => Some(run_rustdoc(arguments)),
        _ => None,
    }
}

/// Runs a test program with these arguments, and ends as it did. A program with a harness of its own gets no more than
/// these.
fn run_program(path: &OsStr, arguments: &[OsString]) -> Result<ExitCode, Failure> {
    let plan = Plan::given();
    let shown = path.to_string_lossy();
    let program = match plan.program_at(&shown) {
        Some(program) => program.started(),
        None => StartedProgram {
            package: package(),
            target: target_of(path),
            path: Some(shown),
            harness: true,
            ..StartedProgram::default()
        },
    };
    let list = is_list(arguments);
    let program = StartedProgram { list, ..program };
    if program.harness {
        return run_tests(&plan, &Tested::Program(path), arguments, program);
    }
    if is_left_out(&plan, &program) {
        return Ok(ExitCode::SUCCESS);
    }
    let mut command = command_of(path);
    command.args(arguments);
    watch_to_end(command, program, None, plan.retries)
}

/// Returns true if nothing of a program is to run.
fn is_left_out(plan: &Plan, program: &StartedProgram) -> bool {
    let failed = plan.failed.as_ref();
    let left = failed
        .zip(program.name.as_deref())
        .map(|(failed, name)| failed.left_of(name));
    left == Some(None)
}

/// Runs the tests of a program that are to run, with these arguments of the harness, and ends as it did. If there are none,
/// the program is not started.
fn run_tests(
    plan: &Plan,
    tested: &Tested,
    given: &[OsString],
    program: StartedProgram,
) -> Result<ExitCode, Failure> {
    let Some(selected) = selected_by(plan, tested, given, &program) else {
        return Ok(ExitCode::SUCCESS);
    };
    let missing = missing_options(&selected).map(OsString::from);
    let arguments: Vec<_> = missing.chain(selected.iter().cloned()).collect();
    let command = tested.command(command_of, &arguments);
    let options = HarnessArguments::of(&divided(tested, &arguments));
    let options = without_log_file(options.options());
    let retrying = Retrying::new(plan.retries, tested, &options, &command_of);
    watch_to_end(command, program, Some(&retrying), plan.retries)
}

/// Returns the arguments of the harness with which those tests run that failed last and that the user's arguments select,
/// or `None` if there are none. If all tests are to run, if the name of the program is not known, if it does not name its
/// tests, or if the arguments would be too long, these are the user's arguments.
fn selected_by(
    plan: &Plan,
    tested: &Tested,
    given: &[OsString],
    program: &StartedProgram,
) -> Option<Vec<OsString>> {
    let (Some(failed), Some(name)) = (&plan.failed, &program.name) else {
        return Some(given.to_vec());
    };
    let left = failed.left_of(name)?;
    let Some(tests) = tested.tests(command_of, false) else {
        return Some(given.to_vec());
    };
    let tests: Vec<_> = tests.iter().map(String::as_str).collect();
    let arguments = HarnessArguments::of(&divided(tested, given));
    let mut selected = arguments.options().to_vec();
    if !arguments.mention_ignored() && left.has_ignored(|| tested.tests(command_of, true)) {
        selected.push(INCLUDE_IGNORED.into());
    }
    let missing = left.missing(name, &tests);
    let instead: HashSet<_> = missing.instead.iter().map(String::as_str).collect();
    let is_selected =
        |test: &&str| (left.has(test) || instead.contains(test)) && arguments.select(test);
    let (wanted, others): (Vec<_>, Vec<_>) = tests.into_iter().partition(is_selected);
    say_missing(missing);
    if wanted.is_empty() {
        return None;
    }
    if others.is_empty() {
        return Some(selected);
    }
    let Some(words) = tested.selecting(&wanted, &others) else {
        return Some(given.to_vec());
    };
    selected.extend(words);
    Some(selected)
}

/// Writes a line about the tests that a program no longer has, if there are some.
fn say_missing(missing: MissingTests) {
    if missing.tests.is_empty() && missing.moved.is_empty() {
        return;
    }
    let missing = RunLine::Program(ProgramLine::Missing(missing));
    let mut streams = RunStreams::new(StandardOutput::lock(), io::sink());
    // If nobody reads it, it is not needed.
    let _ = streams.write_own_line(&missing);
}

/// Returns arguments of the harness as it gets them: rustdoc divides them at white space.
fn divided(tested: &Tested, arguments: &[OsString]) -> Vec<OsString> {
    match tested {
        Tested::Program(_) => arguments.to_vec(),
        Tested::Documentation(_) => {
            let texts = arguments.iter().map(|word| word.to_string_lossy());
            texts
                .flat_map(|text| {
                    text.split_whitespace()
                        .map(OsString::from)
                        .collect::<Vec<_>>()
                })
                .collect()
        }
    }
}

/// Returns the name of the target that a test program was built from, by its path: cargo adds `-` and 16 digits to it.
/// It has `_` for each `-` of the target.
fn target_of(path: &OsStr) -> Option<Cow<'_, str>> {
    let name = Path::new(path).file_stem()?.to_str()?;
    let is_hash = |hash: &str| hash.len() == 16 && hash.bytes().all(|it| it.is_ascii_hexdigit());
    let target = name.rsplit_once('-').filter(|(_, hash)| is_hash(hash));
    Some(target.map_or(name, |(target, _)| target).into())
}

/// Runs rustdoc with these arguments, and ends as it did.
fn run_rustdoc(arguments: &[OsString]) -> Result<ExitCode, Failure> {
    if !runs_tests(arguments) {
        let mut command = command_of("rustdoc".as_ref());
        command.args(without_runner(arguments));
        command.env(BOOTSTRAP, ACCEPT_OPTIONS);
        let error = become_program(command);
        return Err(not_started("rustdoc", error));
    }
    let package = package();
    let name = package.as_deref().map(|it| documentation_of(it).into());
    let given = test_arguments(arguments);
    let program = StartedProgram {
        package,
        target: value_after(arguments, "--crate-name"),
        kind: Some("doc".into()),
        path: value_after(arguments, TEST),
        name,
        harness: true,
        list: is_list(&given),
    };
    let own = without(&RUNNER_OPTIONS, arguments.iter());
    let own = without(&[TEST_ARGUMENT], own).map(OsString::as_os_str);
    let tested = Tested::Documentation(own.collect());
    run_tests(&Plan::given(), &tested, &given, program)
}

/// Returns the name of the documentation tests of a package.
pub fn documentation_of(package: &str) -> String {
    format!("{package} (doc tests)")
}

/// Returns a program for the system. It does not see the variables that are for stand-ins and for cargo alone.
fn command_of(program: &OsStr) -> Command {
    let mut command = Command::new(program);
    match env::var_os(USERS_COLOR) {
        None => {}
        Some(color) if color.is_empty() => {
            command.env_remove(CARGO_COLOR);
        }
        Some(color) => {
            command.env(CARGO_COLOR, color);
        }
    }
    for name in [AS_RUSTDOC, PROGRAMS, USERS_COLOR] {
        command.env_remove(name);
    }
    command
}

/// Runs a program, writes what it sees of it, and ends as it did. Failed tests run again if `retrying` says how.
fn watch_to_end(
    mut command: Command,
    program: StartedProgram,
    retrying: Option<&Retrying>,
    retries: Retries,
) -> Result<ExitCode, Failure> {
    let (output, errors) = (StandardOutput::lock(), StandardError::get());
    // If stand-ins hold lines back, these go before the line about Ctrl-C, and so only stand-ins know its place.
    let says_interrupt = retries.count > 0;
    match watch(
        &mut command,
        program,
        retrying,
        says_interrupt,
        output,
        errors,
    ) {
        Ok(status) => exit(end_as(status)),
        Err(error) => {
            let name = command.get_program().display().to_string();
            Err(not_started(&name, error))
        }
    }
}

/// Returns the failure to start a program.
fn not_started(name: &str, error: io::Error) -> Failure {
    let message = format!("{name} cannot be started");
    Failure::new(NOT_STARTED, message).caused_by(Some(error))
}

/// Returns the name of the package of the program, if cargo says it.
fn package<'a>() -> Option<Cow<'a, str>> {
    env::var(PACKAGE).ok().map(Cow::from)
}

/// Returns the argument that follows another one.
fn value_after<'a>(arguments: &'a [OsString], option: &str) -> Option<Cow<'a, str>> {
    let at = arguments.iter().position(|word| word == option)?;
    arguments.get(at + 1).map(|word| word.to_string_lossy())
}

/// Returns true if a harness with these arguments lists something and runs no test.
fn is_list(harness: &[OsString]) -> bool {
    harness.iter().any(|word| LISTS.iter().any(|it| word == it))
}

/// Returns true if rustdoc with these arguments runs documentation tests.
fn runs_tests(arguments: &[OsString]) -> bool {
    arguments.iter().any(|word| word == TEST)
}

/// Returns the arguments of rustdoc without a runner. Documentation tests need none: they inherit the variable from
/// rustdoc, which runs them in other ways if there is a runner.
fn without_runner(arguments: &[OsString]) -> impl Iterator<Item = &OsString> {
    without(&RUNNER_OPTIONS, arguments.iter())
}

/// Returns arguments without some options and the value after each of them.
fn without<'a>(
    options: &[&str],
    arguments: impl Iterator<Item = &'a OsString>,
) -> impl Iterator<Item = &'a OsString> {
    let mut previous_is_option = false;
    arguments.filter(move |word| {
        let is_option = !previous_is_option && options.iter().any(|option| *word == option);
        let is_left_out = is_option || previous_is_option;
        previous_is_option = is_option;
        !is_left_out
    })
}

/// Returns options of the harness without the file to which it writes the results.
fn without_log_file(options: &[OsString]) -> Vec<OsString> {
    let with_value = format!("{LOG_FILE}=");
    without(&[LOG_FILE], options.iter())
        .filter(|word| !word.to_string_lossy().starts_with(&with_value))
        .cloned()
        .collect()
}

/// Returns the arguments that rustdoc passes to documentation tests.
fn test_arguments(arguments: &[OsString]) -> Vec<OsString> {
    let pairs = arguments.iter().zip(arguments.iter().skip(1));
    pairs
        .filter(|(option, _)| *option == TEST_ARGUMENT)
        .map(|(_, word)| word.clone())
        .collect()
}

#[cfg(test)]
mod tests {
    use super::*;

    #[test]
    fn a_target_is_known_by_the_file_that_cargo_made_of_it() {
        for (path, target) in [
            ("/t/debug/deps/it-0123456789abcdef", "it"),
            ("/t/it_all-c07fcdf371028e36", "it_all"),
            ("/t/it-0123456789abcde", "it-0123456789abcde"),
            ("/t/it-0123456789abcdeg", "it-0123456789abcdeg"),
            ("it", "it"),
        ] {
            assert_eq!(target_of(path.as_ref()).as_deref(), Some(target), "{path}");
        }
        assert_eq!(target_of("/".as_ref()), None);
    }

    #[test]
    fn rustdoc_gets_no_runner() {
        let given = "--test a.rs --test-runtool x --test-runtool-arg --as-runner --test-args a --test-runtool-arg \
                     --test-runtool b";
        let given: Vec<_> = given.split_whitespace().map(OsString::from).collect();
        let left: Vec<_> = without_runner(&given).collect();
        assert_eq!(left, ["--test", "a.rs", "--test-args", "a", "b"]);
    }

    #[test]
    fn a_harness_that_lists_something_runs_no_test() {
        let words =
            |text: &str| -> Vec<OsString> { text.split_whitespace().map(OsString::from).collect() };
        for arguments in ["--list", "a --help", "-h"] {
            assert!(is_list(&words(arguments)), "{arguments}");
        }
        assert!(!is_list(&words("list --lists")));
        assert!(is_list(&test_arguments(&words(
            "--test --test-args --list"
        ))));
        assert!(!is_list(&test_arguments(&words("--list --test-args a"))));
    }

    #[test]
    fn a_test_that_runs_again_leaves_the_file_of_results_alone() {
        let words = |text: &str| -> Vec<_> { text.split(' ').map(OsString::from).collect() };
        let given = "--logfile a --ignored --logfile=b --color never --logfiles";
        assert_eq!(
            without_log_file(&words(given)),
            words("--ignored --color never --logfiles")
        );
    }

    #[test]
    fn the_program_is_itself_without_the_first_argument() {
        for arguments in [&[][..], &["a".into(), AS_RUNNER.into(), "b".into()]] {
            assert!(stand_in(arguments).is_none(), "{arguments:?}");
        }
    }

    #[test]
    fn a_test_program_that_is_not_there_is_a_failure() {
        let arguments = [AS_RUNNER.into(), "/no/such/program".into()];
        let failure = stand_in(&arguments)
            .expect("this is a runner")
            .expect_err("there is no such program");
        assert!(
            failure
                .to_string()
                .starts_with("/no/such/program cannot be started: "),
            "{failure}"
        );
    }
}
