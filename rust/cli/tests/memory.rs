//! The memory of `test-report` does not grow with the tests that passed, and that of a stand-in not with what its program
//! writes.
#![cfg(target_os = "linux")]

use crate::common::{Folder, command};
use std::fs;
use std::io::{BufRead, BufReader, Write};
use std::process::Stdio;

/// Returns the greatest memory of a process until now, in kilobytes.
fn peak_of(process: u32) -> usize {
    let status = fs::read_to_string(format!("/proc/{process}/status")).expect("the process runs");
    let line = status.lines().find_map(|line| line.strip_prefix("VmHWM:"));
    let number = line.and_then(|line| line.split_whitespace().next());
    number
        .and_then(|number| number.parse().ok())
        .expect("the peak is a number")
}

/// Writes the lines of tests that pass.
fn write_tests(stdin: &mut impl Write, count: usize) {
    for number in 0..count {
        let lines = format!(
            "{{\"type\":\"test\",\"event\":\"started\",\"name\":\"case_{number}\"}}\n\
             {{\"type\":\"test\",\"event\":\"ok\",\"name\":\"case_{number}\"}}\n"
        );
        stdin
            .write_all(lines.as_bytes())
            .expect("the program reads");
    }
}

#[test]
fn memory_does_not_grow_with_tests_that_passed() {
    for form in ["text", "names", "github"] {
        let mut child = command("test-report", &["--format", form])
            .spawn()
            .expect("the program starts");
        let mut stdin = child.stdin.take().expect("standard input is a pipe");
        stdin
            .write_all(b"{\"type\":\"suite\",\"event\":\"started\",\"test_count\":110000}\n")
            .expect("the program reads");
        // The program is at most a full pipe behind.
        write_tests(&mut stdin, 10_000);
        let before = peak_of(child.id());
        write_tests(&mut stdin, 100_000);
        let after = peak_of(child.id());
        stdin
            .write_all(b"{\"type\":\"suite\",\"event\":\"ok\"}\n")
            .expect("the program reads");
        drop(stdin);
        let output = child.wait_with_output().expect("the program ends");
        assert_eq!(output.status.code(), Some(0), "{form}");
        assert!(after < before + 512, "{form}: {before} kB, then {after} kB");
    }
}

/// A program that writes 1 MB of lines to both streams, and then 20 MB.
const WRITES: &str = r#"#!/bin/sh
for millions in 1 20; do
    yes "a line of a test" | head -c "${millions}000000"
    yes "a line of a server" | head -c "${millions}000000" >&2
    echo
    echo written
    read line
done
"#;

#[test]
fn a_stand_in_holds_no_more_than_a_line_and_the_end_of_standard_error() {
    let folder = Folder::new("held");
    let path = folder.script("program", WRITES);
    let mut child = command("test-report", &["--as-runner", &path])
        .stderr(Stdio::null())
        .spawn()
        .expect("the program starts");
    let mut stdin = child.stdin.take().expect("standard input is a pipe");
    let stdout = BufReader::new(child.stdout.take().expect("standard output is a pipe"));
    let mut lines = stdout.lines().map(|line| line.expect("the line is UTF-8"));
    let mut peaks = Vec::new();
    for _ in 0..2 {
        lines.find(|line| line == "written").expect("it is written");
        peaks.push(peak_of(child.id()));
        stdin.write_all(b"\n").expect("the program reads");
    }
    assert_eq!(lines.count(), 1, "the end of the program");
    assert!(child.wait().expect("the program ends").success());
    assert!(peaks[1] < peaks[0] + 512, "{peaks:?} kB");
}
