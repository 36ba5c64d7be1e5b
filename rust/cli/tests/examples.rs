//! Both programs on stored inputs: standard output, standard error and exit status, byte for byte.
//!
//! An input NAME has its arguments in NAME.args, one per line, and what the program does in
//! NAME.stdout, NAME.stderr and NAME.status. A file that is absent means no arguments, no text, or 0.
//! The inputs are the samples of this package and, inside the repository, its examples.
//!
//! This is a test program of its own, because `./check --quick` builds no other one, in a release build.

#[allow(dead_code, reason = "the other tests call the rest")]
mod common;

use common::{assert_output, run_on_file};
use std::ffi::OsString;
use std::fs::{self, File};
use std::path::{Path, PathBuf};

/// Returns the bytes of the file of an input that has this suffix, or nothing if it is absent.
fn file_of(input: &Path, suffix: &str) -> Vec<u8> {
    let mut path = input.as_os_str().to_owned();
    path.push(suffix);
    fs::read(path).unwrap_or_default()
}

/// Returns an argument with these bytes, or `None` if this system has no such argument.
fn argument(bytes: &[u8]) -> Option<OsString> {
    #[cfg(unix)]
    {
        use std::os::unix::ffi::OsStringExt;
        Some(OsString::from_vec(bytes.to_vec()))
    }
    #[cfg(not(unix))]
    {
        String::from_utf8(bytes.to_vec()).ok().map(OsString::from)
    }
}

/// Runs a program on a stored input and compares all that it writes, and its exit status.
fn check(program: &str, input: &Path) {
    let stored = file_of(input, ".args");
    let lines = stored.split(|byte| *byte == b'\n');
    let Some(mut arguments) = lines.map(argument).collect::<Option<Vec<_>>>() else {
        println!("{}: skipped, an argument is not UTF-8", input.display());
        return;
    };
    // What follows the last line feed is not an argument.
    arguments.pop_if(|last| last.is_empty());
    let status = String::from_utf8(file_of(input, ".status")).expect("a status is a number");
    let status = match status.trim() {
        "" => 0,
        number => number.parse().expect("a status is a number"),
    };
    let file = File::open(input).expect("the input can be opened");
    assert_output(
        &run_on_file(program, &arguments, file),
        &file_of(input, ".stdout"),
        &file_of(input, ".stderr"),
        status,
        &input.display().to_string(),
    );
}

/// Runs a program on all files of a folder that have this extension, and returns how many there are.
fn check_folder(program: &str, folder: &Path, extension: &str) -> usize {
    let entries = fs::read_dir(folder).expect("the folder can be read");
    let inputs: Vec<PathBuf> = entries
        .map(|entry| entry.expect("the folder can be read").path())
        .filter(|path| path.extension().is_some_and(|found| found == extension))
        .collect();
    for input in &inputs {
        check(program, input);
    }
    inputs.len()
}

/// Checks a program on the samples of this package.
fn check_samples(program: &str, extension: &str) {
    let folder = Path::new(env!("CARGO_MANIFEST_DIR")).join("tests/samples");
    let checked = check_folder(program, &folder.join(program), extension);
    assert!(checked >= 4, "only {checked} samples of {program}");
}

/// Checks a program on the examples of the repository, if this package is inside it.
fn check_examples(program: &str, folder: &str, extension: &str) {
    let repository = Path::new(env!("CARGO_MANIFEST_DIR")).join("../..");
    if !repository.join("crates.txt").exists() {
        println!("skipped: this package is outside its repository, which has the examples");
        return;
    }
    let checked = check_folder(program, &repository.join(folder), extension);
    assert!(checked >= 8, "only {checked} examples of {program}");
}

#[test]
fn run_digest_on_samples() {
    check_samples("run-digest", "txt");
}

#[test]
fn test_report_on_samples() {
    check_samples("test-report", "jsonl");
}

#[test]
fn run_digest_on_examples_of_the_repository() {
    check_examples("run-digest", "examples", "txt");
}

#[test]
fn test_report_on_examples_of_the_repository() {
    check_examples("test-report", "examples/test-report", "jsonl");
}
