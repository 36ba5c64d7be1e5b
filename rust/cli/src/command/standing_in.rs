//! What is known of a command whose test programs have stand-ins.

use super::cargo::{CargoCommand, values_of};
use super::harness::HarnessArguments;
use super::workspace::WorkspaceQuestion;
use crate::run_again::RunAgain;
use std::ffi::OsString;
use std::iter;

/// The options of cargo with which it runs no documentation tests.
const TARGETS: [&str; 10] = [
    "--all-targets",
    "--lib",
    "--bins",
    "--bin",
    "--examples",
    "--example",
    "--tests",
    "--test",
    "--benches",
    "--bench",
];

/// The options of `cargo test` that have a value in the next argument.
const WITH_VALUE: [&str; 21] = [
    "--bin",
    "--example",
    "--test",
    "--bench",
    "-p",
    "--package",
    "--exclude",
    "-F",
    "--features",
    "-j",
    "--jobs",
    "--profile",
    "--target",
    "--target-dir",
    "--manifest-path",
    "--lockfile-path",
    "--message-format",
    "--color",
    "--config",
    "-Z",
    "-C",
];

/// The program that cargo starts in place of the test programs, and what is known of these.
#[derive(Debug, PartialEq, Eq)]
pub struct StandIn {
    /// Its path.
    pub path: String,

    /// What cargo is asked about the workspace.
    pub workspace: WorkspaceQuestion,

    /// Which of the tests run, and how often.
    pub again: RunAgain,

    /// True if the programs measure benchmarks.
    pub measures: bool,

    /// True if cargo also runs documentation tests, as far as the arguments say it.
    pub documents: bool,

    /// True if the names of the programs are known when they run.
    pub has_names: bool,

    /// True if the user's arguments may select some of the tests of a program.
    pub has_filters: bool,
}

impl StandIn {
    /// Returns the program at a path as the stand-in of the test programs of a command.
    pub fn of(cargo: &CargoCommand, path: &str) -> StandIn {
        let has = |option: &str| cargo.own.iter().any(|word| word == option);
        let names_target = |option: &&str| has(option) || !values_of(cargo.own, option).is_empty();
        let measures = cargo.subcommand.iter().any(|word| word == "bench");
        let has_all_targets = !TARGETS.iter().any(names_target);
        StandIn {
            path: path.to_string(),
            workspace: WorkspaceQuestion::of(cargo),
            again: RunAgain::default(),
            measures,
            documents: has("--doc") || has_all_targets && !measures,
            has_filters: has_name(cargo.own) || HarnessArguments::of(cargo.harness).have_filters(),
            has_names: has("--doc") || values_of(cargo.own, "--message-format").is_empty(),
        }
    }
}

/// Returns true if an argument of cargo is a part of the names of tests: it is no option, and no value of one.
fn has_name(own: &[OsString]) -> bool {
    let is_option = |word: &OsString| word.to_string_lossy().starts_with('-');
    let has_value = |word: &OsString| WITH_VALUE.iter().any(|option| word == option);
    let previous = iter::once(None).chain(own.iter().map(Some));
    own.iter()
        .zip(previous)
        .any(|(word, previous)| !is_option(word) && !previous.is_some_and(has_value))
}

#[cfg(test)]
mod tests {
    use super::*;

    #[test]
    fn the_arguments_say_which_programs_run_and_whether_they_have_names() {
        for (command, documents, measures, has_names) in [
            ("cargo test", true, false, true),
            ("cargo t --lib", false, false, true),
            ("cargo test --test=it", false, false, true),
            ("cargo test --all-targets", false, false, true),
            ("cargo bench", false, true, true),
            ("cargo test --doc", true, false, true),
            ("cargo test --message-format short", true, false, false),
            ("cargo test -- --lib", true, false, true),
        ] {
            let words: Vec<_> = command.split_whitespace().map(OsString::from).collect();
            let cargo = CargoCommand::of(&words).expect("the command runs tests");
            let found = StandIn::of(&cargo, "/p");
            let found = (found.documents, found.measures, found.has_names);
            assert_eq!(found, (documents, measures, has_names), "{command}");
        }
    }

    #[test]
    fn the_arguments_say_whether_tests_are_selected() {
        for (command, has_filters) in [
            ("cargo test --test it -p a --lib -j 2 --features=b", false),
            ("cargo test adds", true),
            ("cargo test --lib adds", true),
            ("cargo test -- --nocapture --test-threads 1", false),
            ("cargo test -- adds", true),
            ("cargo test -- --skip adds", true),
            ("cargo test -- --ignored", true),
            ("cargo test -- --include-ignored", false),
        ] {
            let words: Vec<_> = command.split_whitespace().map(OsString::from).collect();
            let cargo = CargoCommand::of(&words).expect("the command runs tests");
            let found = StandIn::of(&cargo, "/p").has_filters;
            assert_eq!(found, has_filters, "{command}");
        }
    }
}
