//! Finds out whether a command is a cargo that runs tests.

use std::ffi::OsString;
use std::path::Path;

/// The options of cargo that have a value in the next argument.
const WITH_VALUE: [&str; 4] = ["--config", "-C", "-Z", "--color"];

/// The arguments of cargo with which it runs no tests.
const RUNS_NOTHING: [&str; 6] = ["--no-run", "--help", "-h", "--version", "-V", "--list"];

/// The arguments of a test harness with which it runs no tests.
const HARNESS_RUNS_NOTHING: [&str; 3] = ["--list", "--help", "-h"];

/// What runs the tests.
#[derive(Clone, Copy, Debug, PartialEq, Eq)]
pub enum Runner {
    /// Rust's test harness, by `cargo test` or `cargo bench`.
    Harness,

    /// Nextest, by `cargo nextest run`.
    Nextest,
}

/// A command by which cargo runs tests, divided into its parts.
#[derive(Clone, Copy, Debug, PartialEq, Eq)]
pub struct CargoCommand<'a> {
    pub runner: Runner,

    /// The program, and the arguments before the subcommand.
    pub before: &'a [OsString],

    /// The subcommand: `test`, or `nextest run`.
    pub subcommand: &'a [OsString],

    /// The arguments after the subcommand and before the first `--`.
    pub own: &'a [OsString],

    /// The arguments after the first `--`.
    pub harness: &'a [OsString],
}

impl<'a> CargoCommand<'a> {
    /// Returns the parts of a command, or `None` if it is not cargo, or if it runs no tests.
    pub fn of(words: &'a [OsString]) -> Option<CargoCommand<'a>> {
        let (before, rest) = words.split_at(subcommand_at(words)?);
        let runner = runner_of(rest)?;
        let count = match runner {
            Runner::Harness => 1,
            Runner::Nextest => 2,
        };
        let (subcommand, arguments) = rest.split_at(count);
        let mut parts = arguments.splitn(2, |word| word == "--");
        let command = CargoCommand {
            runner,
            before,
            subcommand,
            own: parts.next().unwrap_or_default(),
            harness: parts.next().unwrap_or_default(),
        };
        command.runs_tests().then_some(command)
    }

    /// Returns true if no argument is one with which cargo or the harness runs no tests.
    fn runs_tests(&self) -> bool {
        let is_in = |words: &[OsString], wanted: &[&str]| {
            words.iter().any(|word| wanted.iter().any(|it| word == it))
        };
        !is_in(self.before, &RUNS_NOTHING)
            && !is_in(self.own, &RUNS_NOTHING)
            && !is_in(self.harness, &HARNESS_RUNS_NOTHING)
    }
}

/// Returns the index of cargo's subcommand, or `None` if the command is not cargo or has none.
pub fn subcommand_at(words: &[OsString]) -> Option<usize> {
    let name = Path::new(words.first()?).file_name()?;
    if name != "cargo" && name != "cargo.exe" {
        return None;
    }
    let mut at = 1;
    while let Some(word) = words.get(at) {
        match word.to_str() {
            Some(option) if WITH_VALUE.contains(&option) => at += 2,
            Some(word) if word.starts_with(['-', '+']) => at += 1,
            _ => return Some(at),
        }
    }
    None
}

/// Returns what runs the tests, by the subcommand and the arguments after it. Returns `None` for another subcommand.
pub fn runner_of(words: &[OsString]) -> Option<Runner> {
    let word = |at: usize| words.get(at).and_then(|word| word.to_str());
    match (word(0)?, word(1)) {
        ("test" | "t" | "bench", _) => Some(Runner::Harness),
        ("nextest", Some("run" | "r")) => Some(Runner::Nextest),
        _ => None,
    }
}

/// Returns the values of an option: `--name VALUE` and `--name=VALUE`.
pub fn values_of<'a>(words: &'a [OsString], name: &str) -> Vec<&'a str> {
    let next = words.iter().skip(1).map(Some).chain([None]);
    words
        .iter()
        .zip(next)
        .filter_map(|(word, next)| match word.to_str()?.strip_prefix(name)? {
            "" => next?.to_str(),
            rest => rest.strip_prefix('='),
        })
        .collect()
}

#[cfg(test)]
mod tests {
    use super::*;

    /// Returns the words of a text.
    fn words(text: &str) -> Vec<OsString> {
        text.split_whitespace().map(OsString::from).collect()
    }

    /// Asserts the parts of a command.
    fn assert_parts(command: &str, runner: Runner, parts: [&str; 4]) {
        let given = words(command);
        let [before, subcommand, own, harness] = parts.map(words);
        let wanted = CargoCommand {
            runner,
            before: &before,
            subcommand: &subcommand,
            own: &own,
            harness: &harness,
        };
        assert_eq!(CargoCommand::of(&given), Some(wanted), "{command}");
    }

    #[test]
    fn cargo_runs_tests_by_its_first_argument_that_is_no_option() {
        let harness = Runner::Harness;
        assert_parts("cargo test", harness, ["cargo", "test", "", ""]);
        assert_parts("/bin/cargo t a", harness, ["/bin/cargo", "t", "a", ""]);
        assert_parts("cargo.exe bench", harness, ["cargo.exe", "bench", "", ""]);
        let before =
            "cargo +nightly -q --config test -C build --color always --color=never -Z x --locked";
        assert_parts(
            &format!("{before} test -p a -- b -- c"),
            harness,
            [before, "test", "-p a", "b -- c"],
        );
        assert_parts("cargo -Zx test --", harness, ["cargo -Zx", "test", "", ""]);
    }

    #[test]
    fn nextest_runs_tests_by_its_first_argument() {
        let parts = ["cargo --offline", "nextest r", "-P ci", "--exact"];
        assert_parts(
            "cargo --offline nextest r -P ci -- --exact",
            Runner::Nextest,
            parts,
        );
        assert_parts(
            "cargo nextest run",
            Runner::Nextest,
            ["cargo", "nextest run", "", ""],
        );
    }

    #[test]
    fn another_command_is_none() {
        for command in [
            "",
            "cargo",
            "cargo build test",
            "cargo --config test",
            "cargo nextest",
            "cargo nextest list",
            "cargo nextest -v run",
            "cargo-nextest nextest run",
            "mycargo test",
            "sh -c cargo test",
        ] {
            assert_eq!(CargoCommand::of(&words(command)), None, "{command}");
        }
    }

    #[test]
    fn a_command_that_runs_no_tests_is_none() {
        for command in [
            "cargo test --no-run",
            "cargo test -p a --help",
            "cargo bench -h",
            "cargo --version test",
            "cargo --list test",
            "cargo test -- --list",
            "cargo test -- a -h",
            "cargo nextest run --no-run",
        ] {
            assert_eq!(CargoCommand::of(&words(command)), None, "{command}");
        }
        // These are arguments of the harness.
        for command in ["cargo test -- --no-run", "cargo test -- -V"] {
            assert!(CargoCommand::of(&words(command)).is_some(), "{command}");
        }
    }

    #[test]
    fn the_values_of_an_option_have_two_forms() {
        let given = words("--target a --target=b --targets c --target= --target");
        assert_eq!(values_of(&given, "--target"), ["a", "b", ""]);
        assert_eq!(values_of(&given, "--format"), [""; 0]);
    }
}
