//! Prepares a command: adds the arguments and the variables with which it writes JSON lines.

use super::aliases::without_aliases;
use super::cargo::{CargoCommand, Runner, runner_of, subcommand_at, values_of};
use super::cargo_colors::CARGO_COLOR;
use super::harness::{ACCEPT_OPTIONS, BOOTSTRAP, missing_options};
use super::settings::names_other_program;
use super::stand_in::{AS_RUNNER, AS_RUSTDOC, USERS_COLOR};
use super::standing_in::StandIn;
use crate::report::advice::Advice;
use crate::run_again::RunAgain;
use std::env;
use std::ffi::OsString;
use std::io::{self, IsTerminal};
use std::path::PathBuf;
use std::process::{Command, Stdio};

/// The variable without which nextest refuses to write JSON lines.
const NEXTEST_JSON: &str = "NEXTEST_EXPERIMENTAL_LIBTEST_JSON";

/// The message if the harness cannot be made to accept its options without a variable for all of cargo.
const COST: &str = "test-report: RUSTC_BOOTSTRAP is set for the whole of cargo, because your settings name a runner or \
                    a rustdoc: packages whose build script watches this variable are compiled anew";

/// The arguments with which cargo builds the tests and runs none. A format of messages follows.
const BUILDS: [&str; 2] = ["--no-run", "--message-format"];

/// The format in which cargo says which programs it has built, and what the compiler says.
const JSON: &str = "json";

/// The same, if what the compiler says is to have colours.
const COLORED_JSON: &str = "json-diagnostic-rendered-ansi";

/// A command and what is added to it.
#[derive(Debug, PartialEq, Eq)]
pub struct Prepared {
    /// The program and its arguments.
    pub words: Vec<OsString>,

    /// What is run before, for the names of the suites.
    pub build: Option<Build>,

    /// The variables that are set for the command.
    pub variables: Vec<(&'static str, OsString)>,

    /// A message for the user.
    pub message: Option<&'static str>,

    /// The advice for the case that the command writes no line of a harness.
    pub advice: Advice,

    /// The program that cargo starts in place of the test programs, if it starts one.
    pub stand_in: Option<StandIn>,
}

/// A cargo that builds the tests of a command, and says which programs they are.
#[derive(Debug, PartialEq, Eq)]
pub struct Build {
    /// The program and its arguments.
    words: Vec<OsString>,

    /// The folder in which cargo works.
    pub folder: PathBuf,
}

/// How a stable toolchain's harness is made to accept `-Z unstable-options`.
#[derive(Clone, Debug, PartialEq, Eq)]
enum Acceptance {
    /// By the program at this path, which cargo starts in place of the test programs and of rustdoc. It sets the
    /// variable for these alone, and adds the options.
    StandIn(String),

    /// By the variable for the whole of cargo.
    WholeCargo,

    /// The user has set the variable.
    Given,
}

/// Returns a command with what makes it write JSON lines, if it is a cargo that runs tests, and with this value of cargo's
/// variable for colours, or that of the user.
pub fn prepare(words: &[OsString], color: Option<&str>) -> Prepared {
    let mut prepared = match CargoCommand::of(&without_aliases(words)) {
        Some(cargo) if cargo.runner == Runner::Nextest => with_nextest(&cargo),
        Some(cargo) if writes_other_format(&cargo) => Prepared {
            advice: Advice::OtherFormat,
            ..unchanged(words)
        },
        Some(cargo) => with_harness(&cargo, &acceptance_for(&cargo), color),
        None => unchanged(words),
    };
    if let Some(color) = color {
        prepared.variables.push((CARGO_COLOR, color.into()));
        if prepared.stand_in.is_some() {
            let users = env::var_os(CARGO_COLOR).unwrap_or_default();
            prepared.variables.push((USERS_COLOR, users));
        }
    }
    prepared
}

impl Prepared {
    /// Returns the command for the system. It cannot be started if there are no words.
    pub fn command(&self) -> Command {
        self.command_of(&self.words)
    }

    /// Returns the command that builds the tests. It has the same variables, so it compiles what the command needs.
    pub fn build_command(&self, build: &Build) -> Command {
        let mut command = self.command_of(&build.words);
        command.stdin(Stdio::null());
        command
    }

    /// Sets which of the tests run, and how often, if stand-ins run them.
    pub fn run_again(&mut self, again: RunAgain) {
        if let Some(stand_in) = &mut self.stand_in {
            stand_in.again = again;
        }
    }

    /// Returns true if the user wants cargo to say less. Then it writes no warnings of its own.
    pub fn is_quiet(&self) -> bool {
        let mut own = self.words.iter().take_while(|word| *word != "--");
        own.any(|word| word == "-q" || word == "--quiet")
    }

    /// Returns a command of these words for the system.
    fn command_of(&self, words: &[OsString]) -> Command {
        let program = words.first().cloned().unwrap_or_default();
        let variables = self.variables.iter().map(|(name, value)| (name, value));
        let mut command = Command::new(program);
        command.args(words.iter().skip(1)).envs(variables);
        command
    }
}

/// Returns a command without additions.
fn unchanged(words: &[OsString]) -> Prepared {
    Prepared {
        words: words.to_vec(),
        build: None,
        variables: Vec::new(),
        message: None,
        advice: advice_for(words),
        stand_in: None,
    }
}

/// Returns the advice for a command to which nothing is added. One by which cargo runs tests has what it needs, or its
/// user wants something else.
fn advice_for(words: &[OsString]) -> Advice {
    let subcommand = subcommand_at(words);
    if subcommand.is_some_and(|at| runner_of(&words[at..]).is_some()) {
        return Advice::Nobody;
    }
    let shown = words.iter().take(subcommand.map_or(1, |at| at + 1));
    let shown: Vec<_> = shown.map(|word| word.to_string_lossy()).collect();
    Advice::OtherCommand(shown.join(" "))
}

/// Returns true if the user asks the harness for a format that is not JSON.
fn writes_other_format(cargo: &CargoCommand) -> bool {
    values_of(cargo.harness, "--format")
        .iter()
        .any(|format| *format != "json")
}

/// Returns how the harness is made to accept its options.
fn acceptance_for(cargo: &CargoCommand) -> Acceptance {
    if env::var_os(BOOTSTRAP).is_some() {
        return Acceptance::Given;
    }
    let program = env::current_exe().ok();
    match program.and_then(|path| path.into_os_string().into_string().ok()) {
        Some(path) if !names_other_program(cargo) => Acceptance::StandIn(path),
        _ => Acceptance::WholeCargo,
    }
}

/// Returns a `cargo test` or `cargo bench` whose harness writes JSON lines.
fn with_harness(cargo: &CargoCommand, acceptance: &Acceptance, color: Option<&str>) -> Prepared {
    let front = words_before_own(cargo, acceptance);
    let prepared = Prepared {
        build: build_of(cargo, &front, color),
        words: words_that_run(cargo, acceptance, front),
        advice: Advice::Nobody,
        ..unchanged(&[])
    };
    match acceptance {
        Acceptance::StandIn(path) => Prepared {
            variables: vec![(AS_RUSTDOC, "1".into())],
            stand_in: Some(StandIn::of(cargo, path)),
            ..prepared
        },
        Acceptance::WholeCargo => Prepared {
            variables: vec![(BOOTSTRAP, ACCEPT_OPTIONS.into())],
            message: Some(COST),
            ..prepared
        },
        Acceptance::Given => prepared,
    }
}

/// Returns the program, the arguments up to the subcommand, and the settings for the stand-in if there is one.
fn words_before_own(cargo: &CargoCommand, acceptance: &Acceptance) -> Vec<OsString> {
    let settings: Vec<OsString> = match acceptance {
        Acceptance::StandIn(path) => settings_for(path)
            .into_iter()
            .flat_map(|setting| ["--config".into(), setting.into()])
            .collect(),
        Acceptance::WholeCargo | Acceptance::Given => Vec::new(),
    };
    // Cargo takes no settings before the subcommand if there are some after it.
    if values_of(cargo.own, "--config").is_empty() {
        [cargo.before, &settings, cargo.subcommand].concat()
    } else {
        [cargo.before, cargo.subcommand, &settings].concat()
    }
}

/// Returns the words of a cargo that runs the tests and begins with the words `front`.
fn words_that_run(
    cargo: &CargoCommand,
    acceptance: &Acceptance,
    front: Vec<OsString>,
) -> Vec<OsString> {
    let mut words = front;
    if !cargo.own.iter().any(|word| word == "--no-fail-fast") {
        words.push("--no-fail-fast".into());
    }
    words.extend_from_slice(cargo.own);
    let mut harness = Vec::new();
    // A stand-in adds the options itself, because it knows whether its program has a harness of its own.
    if !matches!(acceptance, Acceptance::StandIn(_)) {
        harness.extend(missing_options(cargo.harness).map(OsString::from));
    }
    harness.extend_from_slice(cargo.harness);
    if !harness.is_empty() {
        words.push("--".into());
        words.extend(harness);
    }
    words
}

/// Returns what builds the tests of a command that begins with the words `front`. Returns `None` if cargo would refuse
/// it: cargo cannot build documentation tests alone, and has only one message format.
fn build_of(cargo: &CargoCommand, front: &[OsString], color: Option<&str>) -> Option<Build> {
    let refuses = cargo.own.iter().any(|word| word == "--doc")
        || !values_of(cargo.own, "--message-format").is_empty();
    if refuses {
        return None;
    }
    let mut words = front.to_vec();
    words.extend(BUILDS.map(OsString::from));
    words.push(message_format(cargo, color).into());
    words.extend_from_slice(cargo.own);
    Some(Build {
        words,
        folder: folder_of(cargo).ok()?,
    })
}

/// Returns the format of cargo's messages: with colours if cargo's own words have them. An option of cargo goes before the
/// variable.
fn message_format(cargo: &CargoCommand, color: Option<&str>) -> &'static str {
    let options = [cargo.before, cargo.own].map(|words| values_of(words, "--color"));
    let option = options.concat().last().map(|color| color.to_string());
    let given = || env::var(CARGO_COLOR).ok();
    let variable = || color.map(String::from).or_else(given);
    match option.or_else(variable).as_deref() {
        Some("always") => COLORED_JSON,
        Some("never") => JSON,
        _ if io::stderr().is_terminal() => COLORED_JSON,
        _ => JSON,
    }
}

/// Returns the folder in which cargo works.
///
/// Fails if there is none.
pub fn folder_of(cargo: &CargoCommand) -> io::Result<PathBuf> {
    let folder = env::current_dir()?;
    match values_of(cargo.before, "-C").last() {
        Some(path) => folder.join(path).canonicalize(),
        None => Ok(folder),
    }
}

/// Returns the settings of cargo by which it starts the program at `path` in place of test programs and of rustdoc.
fn settings_for(path: &str) -> [String; 2] {
    // Strings of JSON are strings of TOML.
    let runner = serde_json::json!([path, AS_RUNNER]);
    let rustdoc = serde_json::json!(path);
    [
        format!("target.'cfg(all())'.runner={runner}"),
        format!("build.rustdoc={rustdoc}"),
    ]
}

/// Returns a `cargo nextest run` that writes JSON lines.
fn with_nextest(cargo: &CargoCommand) -> Prepared {
    let mut words = [cargo.before, cargo.subcommand].concat();
    if values_of(cargo.own, "--message-format").is_empty() {
        words.extend(["--message-format".into(), "libtest-json-plus".into()]);
    }
    words.extend_from_slice(cargo.own);
    if !cargo.harness.is_empty() {
        words.push("--".into());
        words.extend_from_slice(cargo.harness);
    }
    Prepared {
        words,
        build: None,
        variables: vec![(NEXTEST_JSON, "1".into())],
        message: None,
        advice: Advice::Nobody,
        stand_in: None,
    }
}

#[cfg(test)]
mod tests {
    use super::*;

    /// Returns the words of a text.
    fn words(text: &str) -> Vec<OsString> {
        text.split_whitespace().map(OsString::from).collect()
    }

    /// Returns the words that a `cargo test` has if the user has set the variable.
    fn harness_words(command: &str) -> Vec<OsString> {
        let given = words(command);
        let cargo = CargoCommand::of(&given).expect("the command runs tests");
        with_harness(&cargo, &Acceptance::Given, None).words
    }

    #[test]
    fn the_harness_gets_each_option_that_is_missing() {
        let all = "-Z unstable-options --format json --report-time";
        let cases = [
            ("cargo test", format!("cargo test --no-fail-fast -- {all}")),
            (
                "cargo +x -q bench a --no-fail-fast -- b",
                format!("cargo +x -q bench a --no-fail-fast -- {all} b"),
            ),
            (
                "cargo t -- -Zunstable-options --format=json",
                "cargo t --no-fail-fast -- --report-time -Zunstable-options --format=json".into(),
            ),
            (
                "cargo test -- --report-time -Z unstable-options",
                "cargo test --no-fail-fast -- --format json --report-time -Z unstable-options"
                    .into(),
            ),
            (
                "cargo test -- a -- --no-fail-fast",
                format!("cargo test --no-fail-fast -- {all} a -- --no-fail-fast"),
            ),
        ];
        for (command, wanted) in cases {
            assert_eq!(harness_words(command), words(&wanted), "{command}");
        }
    }

    #[test]
    fn settings_before_the_subcommand_name_the_stand_in() {
        let given = words("cargo --locked test");
        let cargo = CargoCommand::of(&given).expect("the command runs tests");
        let prepared = with_harness(&cargo, &Acceptance::StandIn("/a b/\"c\\".into()), None);
        let wanted = [
            "cargo",
            "--locked",
            "--config",
            r#"target.'cfg(all())'.runner=["/a b/\"c\\","--as-runner"]"#,
            "--config",
            r#"build.rustdoc="/a b/\"c\\""#,
            "test",
        ];
        assert_eq!(prepared.words[..7], wanted);
        assert_eq!(prepared.words[7..], ["--no-fail-fast"]);
        assert_eq!(prepared.variables, [(AS_RUSTDOC, "1".into())]);
        assert_eq!(prepared.message, None);
    }

    #[test]
    fn settings_stand_where_those_of_the_user_stand() {
        for (command, after) in [
            ("cargo --config a=1 test", false),
            ("cargo test --config a=1", true),
            ("cargo test --config=a=1", true),
            ("cargo --config a=1 test --config b=1", true),
        ] {
            let given = words(command);
            let cargo = CargoCommand::of(&given).expect("the command runs tests");
            let prepared = with_harness(&cargo, &Acceptance::StandIn("/a".into()), None);
            let at = |wanted: &str| prepared.words.iter().position(|word| word == wanted);
            assert_eq!(at("build.rustdoc=\"/a\"") > at("test"), after, "{command}");
            let build = prepared.build.expect("cargo builds first");
            assert!(
                build
                    .words
                    .iter()
                    .any(|word| word == "build.rustdoc=\"/a\""),
                "{command}"
            );
        }
    }

    #[test]
    fn cargo_builds_first_with_the_same_arguments() {
        let given = words("cargo --locked bench --lib a -- --exact");
        let cargo = CargoCommand::of(&given).expect("the command runs tests");
        let build_of = |acceptance| with_harness(&cargo, acceptance, None).build;
        let build = build_of(&Acceptance::Given).expect("cargo can build");
        let builds = "--no-run --message-format json";
        let wanted = words(&format!("cargo --locked bench {builds} --lib a"));
        assert_eq!(build.words, wanted);
        assert_eq!(build.folder, env::current_dir().expect("there is a folder"));
        let build = build_of(&Acceptance::StandIn("a".into())).expect("cargo can build");
        assert_eq!(build.words[2], "--config");
        assert_eq!(build.words[6..], wanted[2..]);
    }

    #[test]
    fn messages_have_colors_if_cargo_does() {
        for (command, format) in [
            ("cargo test --color always", COLORED_JSON),
            ("cargo --color=always test", COLORED_JSON),
            ("cargo --color always test --color never", JSON),
            ("cargo test --color never", JSON),
        ] {
            let given = words(command);
            let cargo = CargoCommand::of(&given).expect("the command runs tests");
            assert_eq!(message_format(&cargo, None), format, "{command}");
        }
    }

    #[test]
    fn messages_have_the_colors_that_cargo_is_given_unless_an_option_says_others() {
        for (command, colors, format) in [
            ("cargo test", Some("always"), COLORED_JSON),
            ("cargo test", Some("never"), JSON),
            ("cargo test --color never", Some("always"), JSON),
            ("cargo test --color always", Some("never"), COLORED_JSON),
        ] {
            let given = words(command);
            let cargo = CargoCommand::of(&given).expect("the command runs tests");
            assert_eq!(message_format(&cargo, colors), format, "{command}");
            let value = colors.expect("it has one");
            let prepared = prepare(&given, colors);
            assert!(prepared.variables.contains(&(CARGO_COLOR, value.into())));
        }
    }

    #[test]
    fn cargo_is_quiet_by_an_option_of_its_own() {
        for (command, is_quiet) in [
            ("cargo test -q", true),
            ("cargo --quiet test", true),
            ("cargo test", false),
            ("cargo test -- -q", false),
        ] {
            let prepared = Prepared {
                words: words(command),
                ..unchanged(&[])
            };
            assert_eq!(prepared.is_quiet(), is_quiet, "{command}");
        }
    }

    #[test]
    fn cargo_builds_nothing_first_if_it_would_refuse_that() {
        for command in [
            "cargo test --doc",
            "cargo test --message-format short",
            "cargo test --message-format=json",
            "cargo test --no-run",
            "cargo nextest run",
            "cargo test -- --format pretty",
            "make test",
        ] {
            assert_eq!(prepare(&words(command), None).build, None, "{command}");
        }
    }

    #[test]
    fn the_folder_of_cargo_is_that_of_its_last_option() {
        let folder = |command: &str| {
            let given = words(command);
            folder_of(&CargoCommand::of(&given).expect("the command runs tests"))
        };
        let own = env::current_dir().expect("there is a folder");
        assert_eq!(folder("cargo test -C x").expect("it is there"), own);
        let source = own.join("src").canonicalize().expect("it is there");
        assert_eq!(folder("cargo -C src test").expect("it is there"), source);
        assert!(folder("cargo -C no/such/folder test").is_err());
    }

    #[test]
    fn a_message_says_what_the_variable_costs() {
        let given = words("cargo test");
        let cargo = CargoCommand::of(&given).expect("the command runs tests");
        let prepared = with_harness(&cargo, &Acceptance::WholeCargo, None);
        assert_eq!(prepared.words, harness_words("cargo test"));
        assert_eq!(prepared.variables, [(BOOTSTRAP, ACCEPT_OPTIONS.into())]);
        assert_eq!(prepared.message, Some(COST));
    }

    #[test]
    fn another_format_is_left_to_the_user() {
        for command in ["cargo test -- --format terse", "cargo t -- --format=pretty"] {
            assert_eq!(prepare(&words(command), None).words, words(command));
        }
    }

    #[test]
    fn nextest_gets_a_format_and_the_variable() {
        let cases = [
            (
                "cargo nextest run a",
                "cargo nextest run --message-format libtest-json-plus a",
            ),
            (
                "cargo nextest r -- --exact a",
                "cargo nextest r --message-format libtest-json-plus -- --exact a",
            ),
            (
                "cargo nextest run --message-format=libtest-json",
                "cargo nextest run --message-format=libtest-json",
            ),
        ];
        for (command, wanted) in cases {
            let prepared = prepare(&words(command), None);
            assert_eq!(prepared.words, words(wanted));
            assert_eq!(prepared.variables[0], (NEXTEST_JSON, "1".into()));
        }
    }

    #[test]
    fn another_command_is_unchanged() {
        for command in ["sh -c true", "cargo build", "cargo test --no-run"] {
            assert_eq!(prepare(&words(command), None).words, words(command));
        }
    }
}
