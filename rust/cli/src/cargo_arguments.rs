//! Divides the arguments of `cargo test-report` into its own and those of `cargo test`.

use clap::{Arg, Command};
use std::ffi::OsString;

/// The argument after which cargo passes arguments on to the test programs.
const SEPARATOR: &str = "--";

/// Returns the arguments of a program with a `--` before those that it does not know, which are the arguments of
/// `cargo test`: every other option, every word that is no option, and from the first `--` on everything. The first
/// argument is the name of the program.
pub fn divided(mut program: Command, arguments: Vec<OsString>) -> Vec<OsString> {
    // It has its options for the help and the version after this.
    program.build();
    let mut words = arguments.into_iter();
    let mut own: Vec<OsString> = words.next().into_iter().collect();
    let mut others = Vec::new();
    while let Some(word) = words.next() {
        if word == SEPARATOR {
            others.push(word);
            others.extend(words);
            break;
        }
        let Some(option) = option_of(&program, &word) else {
            others.push(word);
            continue;
        };
        let has_value_after = option.get_action().takes_values() && !has_value(&word);
        own.push(word);
        if has_value_after {
            own.extend(words.next());
        }
    }
    if !others.is_empty() {
        own.push(SEPARATOR.into());
        own.extend(others);
    }
    own
}

/// Returns the option of a program that a word is, if it is one.
fn option_of<'a>(program: &'a Command, word: &OsString) -> Option<&'a Arg> {
    let word = word.to_str()?;
    let is_word = |option: &&Arg| match word.strip_prefix("--") {
        Some(long) => option.get_long() == long.split('=').next(),
        None => {
            let short = option.get_short();
            short.is_some_and(|short| word.strip_prefix('-') == Some(short.to_string().as_str()))
        }
    };
    program.get_arguments().find(is_word)
}

/// Returns true if a word is an option with its value.
fn has_value(word: &OsString) -> bool {
    word.to_str().is_some_and(|word| word.contains('='))
}

#[cfg(test)]
mod tests {
    use super::*;
    use crate::commands::cargo_test_report;

    /// Asserts how arguments are divided.
    fn assert_divided(given: &str, wanted: &str) {
        let words = |text: &str| text.split_whitespace().map(OsString::from).collect();
        let divided: Vec<_> = divided(cargo_test_report(), words(given));
        assert_eq!(divided, words(wanted), "{given}");
    }

    #[test]
    fn cargo_gets_each_argument_that_the_program_does_not_know() {
        assert_divided("x", "x");
        assert_divided("x -p ledger", "x -- -p ledger");
        assert_divided("x adds --lib", "x -- adds --lib");
        assert_divided(
            "x -p ledger --junit j.xml --html=h --lib --raw a",
            "x --junit j.xml --html=h --raw -- -p ledger --lib a",
        );
        assert_divided(
            "x --message-format=json -q",
            "x -- --message-format=json -q",
        );
    }

    #[test]
    fn what_follows_two_hyphens_is_for_the_test_programs() {
        assert_divided("x -- --exact a", "x -- -- --exact a");
        assert_divided(
            "x --raw --lib -- --raw -- b",
            "x --raw -- --lib -- --raw -- b",
        );
        assert_divided("x --", "x -- --");
    }

    #[test]
    fn the_help_and_the_version_are_those_of_the_program() {
        for option in ["-h", "--help", "-V", "--version"] {
            assert_divided(&format!("x {option} a"), &format!("x {option} -- a"));
        }
        assert_divided("x --junit", "x --junit");
        assert_divided("x -hV -", "x -- -hV -");
    }
}
