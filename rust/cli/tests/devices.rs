//! Reads and writes of both programs that fail or are interrupted, and inputs that are not UTF-8.

use crate::common::{self, assert_output, command, end_of_text, path_of, run};
use deodarsieve_cli::program::{KeepError, run_engine};
use deodarsieve_cli::run_digest_engine::count::count;
use std::io::{self, ErrorKind, Read, Write};
use std::process::{Command, ExitCode};

/// Asserts that a program wrote nothing, failed with status 3, and wrote one line to standard error: that of `run-digest` is
/// the text of the fault, and that of `test-report` starts so and then has the text of a system's error.
fn assert_failed(output: &std::process::Output, program: &str, fault: &str) {
    let message = String::from_utf8_lossy(&output.stderr);
    assert_eq!(output.status.code(), Some(3), "{message}");
    assert_eq!(output.stdout, b"");
    if program == "run-digest" {
        assert_eq!(message, format!("{fault}\n"));
        return;
    }
    let cause = message
        .strip_prefix(&format!("{program}: {fault}"))
        .unwrap_or_else(|| panic!("{message}"));
    assert!(
        cause.starts_with(": ") && cause.contains("os error"),
        "{message}"
    );
    assert_eq!(cause.find('\n'), Some(cause.len() - 1), "{message}");
}

#[test]
fn a_file_that_cannot_be_opened() {
    let output = run("test-report", &["no/such/run.jsonl"], b"");
    assert_failed(&output, "test-report", "no/such/run.jsonl cannot be opened");
}

#[cfg(unix)]
#[test]
fn a_folder_cannot_be_read() {
    let folder = env!("CARGO_MANIFEST_DIR");
    let output = run("test-report", &[folder], b"");
    assert_failed(&output, "test-report", "read failed");
    let opened = std::fs::File::open(folder).expect("the folder can be opened");
    let output = common::run_on_file("run-digest", &["count"], opened);
    assert_failed(&output, "run-digest", "read failed");
}

#[test]
fn standard_output_that_is_closed() {
    for (program, argument) in [("test-report", "--others=never"), ("run-digest", "count")] {
        let mut child = command(program, &[argument])
            .spawn()
            .expect("the program starts");
        // The program writes after it has read all of its input, and so after this end is closed.
        drop(child.stdout.take());
        let mut stdin = child.stdin.take().expect("standard input is a pipe");
        stdin.write_all(b"run 0 0 -\n").expect("the program reads");
        drop(stdin);
        let output = child.wait_with_output().expect("the program ends");
        if program == "run-digest" {
            assert_failed(&output, program, "write failed");
        } else {
            assert_output(&output, b"", b"", 3, program);
        }
    }
}

#[cfg(target_os = "linux")]
#[test]
fn no_standard_output() {
    let cases: [(&str, &[&str]); 5] = [
        ("test-report", &["-"]),
        ("test-report", &["--format", "names"]),
        ("test-report", &["--help"]),
        ("run-digest", &["count"]),
        ("run-digest", &["--version"]),
    ];
    for (program, arguments) in cases {
        let output = Command::new("sh")
            .args(["-c", "printf 'run 0 0 -\\n' | \"$0\" \"$@\" >&-"])
            .arg(path_of(program))
            .args(arguments)
            .output()
            .expect("a shell runs");
        assert_failed(&output, program, "write failed");
    }
}

#[cfg(target_os = "linux")]
#[test]
fn standard_output_that_is_full() {
    for (program, argument) in [("test-report", "--others=never"), ("run-digest", "count")] {
        let full = std::fs::OpenOptions::new()
            .write(true)
            .open("/dev/full")
            .expect("the device can be opened");
        let mut child = command(program, &[argument])
            .stdout(full)
            .spawn()
            .expect("the program starts");
        let mut stdin = child.stdin.take().expect("standard input is a pipe");
        stdin.write_all(b"run 0 0 -\n").expect("the program reads");
        drop(stdin);
        let output = child.wait_with_output().expect("the program ends");
        assert_failed(&output, program, "write failed");
    }
}

#[test]
fn standard_error_that_is_closed_does_not_change_the_status() {
    for (program, status) in [("test-report", 3), ("run-digest", 2)] {
        let mut child = command(program, &["no/such/run.jsonl"])
            .spawn()
            .expect("the program starts");
        drop(child.stderr.take());
        let output = child.wait_with_output().expect("the program ends");
        assert_eq!(output.status.code(), Some(status), "{program}");
    }
}

#[test]
fn input_that_is_not_utf8() {
    let output = run("run-digest", &["count"], b"run 0 0 -\ntest pa\xffss\n");
    assert_output(&output, b"", b"line 2: bad line\n", 2, "count");
    let output = run("run-digest", &["extract"], b"\xff\nError: \xfe\n\xff\n");
    let found = b"error-str 2 10\nError: \xfe\n\xff\n";
    assert_output(&output, found, b"", 0, "extract");
    let lines = b"\xff\xfe\n{ \"type\": \"te\xffst\" }\n";
    let output = run("test-report", &["-"], lines);
    let notes = "no line of the input is of a test run\n\
    \x20   cargo test writes such lines with: RUSTC_BOOTSTRAP=1 cargo test -- -Z unstable-options --format json\n\
    \x20   test-report -- cargo test does this by itself\n";
    let end = end_of_text(
        "       ERROR no line of the input is of a test run\n",
        "1 error",
        "0 tests run: 0 passed (0 flaky), 0 failed (0 timed out, 0 crashed), 0 skipped, 0 not run",
        "failed",
    );
    let report = [notes, &end].concat();
    assert_output(&output, report.as_bytes(), lines, 1, "test-report");
}

/// A reader or writer of which every second call is interrupted.
struct Interrupted<T> {
    device: T,
    is_next: bool,
}

impl<T> Interrupted<T> {
    /// Makes a device whose first call is interrupted.
    fn new(device: T) -> Interrupted<T> {
        Interrupted {
            device,
            is_next: true,
        }
    }

    /// Returns the device for a call, or the error of a call that is interrupted.
    fn call(&mut self) -> io::Result<&mut T> {
        let interrupted = self.is_next;
        self.is_next = !interrupted;
        match interrupted {
            true => Err(ErrorKind::Interrupted.into()),
            false => Ok(&mut self.device),
        }
    }
}

impl<T: Read> Read for Interrupted<T> {
    fn read(&mut self, buffer: &mut [u8]) -> io::Result<usize> {
        self.call()?.read(buffer)
    }
}

impl<T: Write> Write for Interrupted<T> {
    fn write(&mut self, buffer: &[u8]) -> io::Result<usize> {
        self.call()?.write(buffer)
    }

    fn flush(&mut self) -> io::Result<()> {
        self.call()?.flush()
    }
}

#[test]
fn interrupted_calls_are_made_again() {
    let input = b"run 1 0 -\ntest pass\n";
    let mut written = Vec::new();
    let status = run_engine(
        Interrupted::new(&input[..]),
        Interrupted::new(&mut written),
        |source, sink| count(source, sink),
    );
    assert!(matches!(status, Ok(status) if status == ExitCode::SUCCESS));
    let expected = run("run-digest", &["count"], input).stdout;
    assert_eq!(written, expected);
}

#[test]
fn the_error_of_a_failed_call_is_kept() {
    let mut reader = KeepError::new(Failing);
    let error = reader.read(&mut [0]).expect_err("the reader fails");
    assert_eq!(error.kind(), ErrorKind::Other);
    let kept = reader.into_error().expect("the error is kept");
    assert_eq!(kept.to_string(), "the disk is gone");
}

/// A reader that fails.
struct Failing;

impl Read for Failing {
    fn read(&mut self, _: &mut [u8]) -> io::Result<usize> {
        Err(io::Error::other("the disk is gone"))
    }
}
