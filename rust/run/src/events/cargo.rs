// Made by tools/erase from crates/test_report_events/src/cargo.rt. Do not edit.
//! Recognizes the lines of cargo and nextest that are not JSON.

use crate::events::event::CargoFailure;
use crate::events::time::are_digits;

/// The number of hexadecimal digits at the end of the name of a test binary.
const HASH_DIGITS: usize = 16;

/// A heading of cargo: it names what runs next.
#[derive(Clone, Copy, Debug)]
pub(crate) enum Heading<'a> {
    /// The documentation tests of a crate: `Doc-tests NAME`.
    DocTests { crate_name: &'a str },

    /// A test binary: `Running TARGET (PATH)`.
    Target {
        binary: &'a str,
        target: &'a str,
        path: &'a str,
    },

    /// A test binary, as `cargo test -v` writes it: ``Running `WORDS` ``.
    Command { binary: &'a str, path: &'a str },
}

impl<'a> Heading<'a> {
    /// Returns the name of the suites that follow: `NAME (doc tests)`, `BINARY (TARGET)` or `BINARY`.
    pub(crate) fn suite(&self) -> String {
        match *self {
            Heading::DocTests { crate_name } => suite_of(crate_name, "doc tests"),
            Heading::Target { binary, target, .. } => suite_of(binary, target),
            Heading::Command { binary, .. } => String::from(binary),
        }
    }

    /// Returns the path of the binary, or `None` for documentation tests.
    pub(crate) fn path(&self) -> Option<&'a str> {
        match *self {
            Heading::DocTests { .. } => None,
            Heading::Target { path, .. } => Some(path),
            Heading::Command { path, .. } => Some(path),
        }
    }
}

/// Returns the name of the suites of a crate or a binary, with their kind: `NAME (KIND)`.
pub(crate) fn suite_of(name: &str, kind: &str) -> String {
    format!("{name} ({kind})")
}

/// A line of cargo or nextest that a report needs.
#[derive(Clone, Copy, Debug)]
pub(crate) enum CargoLine<'a> {
    Heading(Heading<'a>),
    Failure(CargoFailure),
}

/// Returns the heading or the failure that a text is, or `None` if it is neither. Spaces in front of it have to be
/// taken off before.
pub(crate) fn cargo_line(text: &str) -> Option<CargoLine<'_>> {
    match heading_of(text) {
        Some(found) => Some(CargoLine::Heading(found)),
        None => match cargo_failure(text) {
            Some(failure) => Some(CargoLine::Failure(failure)),
            None => None,
        },
    }
}

/// Returns the heading that a text is, or `None` if it is none.
pub(crate) fn heading_of(text: &str) -> Option<Heading<'_>> {
    match text.strip_prefix("Doc-tests ") {
        Some(crate_name) => doc_tests(crate_name),
        None => match text.strip_prefix("Running ") {
            Some(running) => binary_heading(running),
            None => None,
        },
    }
}

/// Returns the heading of a crate's documentation tests, or `None` if the crate's name has a space or is empty.
fn doc_tests(crate_name: &str) -> Option<Heading<'_>> {
    if crate_name.is_empty() || crate_name.contains(' ') {
        return None;
    }
    Some(Heading::DocTests { crate_name })
}

/// Returns the heading of a test binary from the text after `Running `, or `None` if it is none.
fn binary_heading(text: &str) -> Option<Heading<'_>> {
    match target_heading(text) {
        Some(found) => Some(found),
        None => command_heading(text),
    }
}

/// Returns the heading that `TARGET (PATH)` makes, or `None` if the text has another form. PATH follows the last ` (`.
fn target_heading(text: &str) -> Option<Heading<'_>> {
    match text.strip_suffix(')')?.rsplit_once(" (") {
        Some((target, path)) if !target.is_empty() => Some(Heading::Target {
            binary: binary_at(path)?,
            target,
            path,
        }),
        _ => None,
    }
}

/// Returns the heading that `` `WORDS` `` makes, or `None` if the text has another form.
fn command_heading(text: &str) -> Option<Heading<'_>> {
    first_program(text.strip_prefix('`')?.strip_suffix('`')?)
}

/// Returns the heading of the first word that is the path of a test binary. Words are divided at spaces.
fn first_program(words: &str) -> Option<Heading<'_>> {
    for path in words.split(' ') {
        if let Some(binary) = program(path) {
            return Some(Heading::Command { binary, path });
        }
    }
    None
}

/// Returns the name of the test binary whose path a word of a command is, or `None` if the word is no such path.
/// A word with `=` sets a variable.
fn program(word: &str) -> Option<&str> {
    if word.contains('=') {
        None
    } else {
        binary_at(word)
    }
}

/// Returns the name of the test binary at a path, or `None` if its file name has no hash.
fn binary_at(path: &str) -> Option<&str> {
    without_hash(without_exe(file_name(path)))
}

/// Returns the file name of a path.
pub(crate) fn file_name(path: &str) -> &str {
    match path.rsplit_once(['/', '\\']) {
        Some((_, file)) => file,
        None => path,
    }
}

/// Removes `.exe` from the end of a file name.
fn without_exe(file: &str) -> &str {
    match file.strip_suffix(".exe") {
        Some(stem) => stem,
        None => file,
    }
}

/// Removes a hyphen and sixteen hexadecimal digits from the end of a file name. Returns `None` if the name
/// does not end so.
fn without_hash(file: &str) -> Option<&str> {
    match file.rsplit_once('-') {
        Some((name, hash)) if is_hash(hash) => Some(name),
        _ => None,
    }
}

/// Returns true for sixteen hexadecimal digits.
fn is_hash(text: &str) -> bool {
    text.len() == HASH_DIGITS && text.as_bytes().iter().all(u8::is_ascii_hexdigit)
}

/// Returns true if a line starts with this text.
fn begins(line: &str, front: &str) -> bool {
    line.starts_with(front)
}

/// Returns the failure that a line of cargo or nextest reports, or `None` if it reports none.
pub(crate) fn cargo_failure(line: &str) -> Option<CargoFailure> {
    if reports_build(line) {
        Some(CargoFailure::Build)
    } else if reports_tests(line) {
        Some(CargoFailure::Tests)
    } else if reports_run(line) {
        Some(CargoFailure::Run)
    } else {
        None
    }
}

/// Returns true for the errors of a crate that was not compiled and of a build script that failed.
fn reports_build(line: &str) -> bool {
    begins(line, "error: could not compile ")
        || begins(line, "error: failed to run custom build command for ")
        || begins(line, "error: build script logged errors")
}

/// Returns true for the errors of tests that failed and of tests that could not be run.
fn reports_tests(line: &str) -> bool {
    begins(line, "error: test failed")
        || begins(line, "error: doctest failed")
        || begins(line, "error: bench failed")
        || begins(line, "error: no test target named ")
        || begins(line, "error: creating test list failed")
        || begins(line, "error: setup script failed")
}

/// Returns true for the errors of a run that failed.
fn reports_run(line: &str) -> bool {
    begins(line, "error: test run failed") || reports_targets(line)
}

/// Returns true for `error: N target failed:` and `error: N targets failed:`.
fn reports_targets(line: &str) -> bool {
    match line.strip_prefix("error: ") {
        Some(error) => is_targets_failed(error),
        None => false,
    }
}

/// Returns true for `N target failed:` and `N targets failed:`.
fn is_targets_failed(error: &str) -> bool {
    match error.split_once(' ') {
        Some((number, "target failed:" | "targets failed:")) => {
            !number.is_empty() && are_digits(number.as_bytes())
        }
        _ => false,
    }
}
