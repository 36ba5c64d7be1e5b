//! Sessions in a shell: commands with `test-report`, and what they must write. The folder `sessions` has them, and the
//! runs that they read. They were written from the description of the program, and not from what it prints.
//!
//! - A line that is not indented begins a part. Each part has a new folder with the runs.
//! - A command follows `$ `. Its other lines follow `> `. Then comes what it must write.
//! - A line of standard error begins with `2> `. An exit status other than 0 is in brackets.
//! - `…` is any text in a line. Alone it is any lines.
//! - `␛` is an escape, and `␍` a carriage return that no line feed follows.
#![cfg(target_os = "linux")]

use crate::common::{Folder, path_of, soon};
use std::env;
use std::fs;
use std::path::Path;
use std::process::{Command, Output, Stdio};

/// What the commands have in common: all forms, all options that name a report, what runs a command on a terminal, and
/// what lists the files other than the runs.
const PRELUDE: &str = r#"
FORMS='text github names junit html markdown json'
FILES='--junit --html --markdown --json --names'
terminal() { script --quiet --return --echo never --command "$1" /dev/null; }
files() { ls -A --ignore='*.jsonl' "$@"; }
"#;

/// A command, and what it must write.
struct Step<'a> {
    line: usize,
    command: String,
    wanted: Vec<&'a str>,
}

/// Returns the steps of each part of a session.
fn parts_of(session: &str) -> Vec<Vec<Step<'_>>> {
    let mut parts: Vec<Vec<Step>> = Vec::new();
    for (number, text) in session.lines().enumerate() {
        let Some(text) = text.strip_prefix("  ") else {
            parts.push(Vec::new());
            continue;
        };
        let part = parts.last_mut().expect("a session begins with a heading");
        if let Some(command) = text.strip_prefix("$ ") {
            part.push(Step {
                line: number + 1,
                command: command.to_string(),
                wanted: Vec::new(),
            });
            continue;
        }
        let step = part.last_mut().expect("a part begins with a command");
        match text.strip_prefix("> ") {
            Some(more) if step.wanted.is_empty() => step.command += &format!("\n{more}"),
            _ => step.wanted.push(text),
        }
    }
    parts
}

/// Returns a new folder with the runs.
fn folder_with_runs() -> Folder {
    let folder = Folder::new("session");
    let sessions = Path::new(env!("CARGO_MANIFEST_DIR")).join("tests/sessions");
    for entry in fs::read_dir(sessions).expect("the folder is there") {
        let path = entry.expect("it can be read").path();
        if path.extension().is_some_and(|end| end == "jsonl") {
            let name = path.file_name().expect("it is a file");
            fs::copy(&path, folder.0.join(name)).expect("it is new");
        }
    }
    folder
}

/// Runs a command of a shell in a folder. It has no variable that changes what `test-report` writes.
fn run_in(folder: &Folder, command: &str) -> Output {
    let programs = Path::new(path_of("test-report")).parent();
    let programs = programs.expect("it is in a folder").to_path_buf();
    let others = env::var_os("PATH").unwrap_or_default();
    let path = [programs].into_iter().chain(env::split_paths(&others));
    let mut shell = Command::new("sh");
    shell
        .args(["-c", &[PRELUDE, command].concat()])
        .env_clear()
        .env("PATH", env::join_paths(path).expect("they are paths"))
        .env("SHELL", "/bin/sh")
        .env("TMPDIR", env::temp_dir())
        .current_dir(&folder.0)
        .stdin(Stdio::null());
    soon(command, move || shell.output()).expect("there is a shell")
}

/// Returns the lines of a stream as a session has them.
fn lines_of(stream: &[u8]) -> Vec<String> {
    let text = String::from_utf8_lossy(stream).replace("\r\n", "\n");
    let text = text.replace('\r', "␍").replace('\u{1b}', "␛");
    text.lines().map(String::from).collect()
}

/// Returns true if a line is the wanted one.
fn line_matches(wanted: &str, line: &str) -> bool {
    match wanted.split_once('…') {
        None => line == wanted,
        Some((first, others)) => line.strip_prefix(first).is_some_and(|rest| {
            let mut places = rest.char_indices().map(|(at, _)| at).chain([rest.len()]);
            places.any(|at| line_matches(others, &rest[at..]))
        }),
    }
}

/// Returns true if lines are the wanted ones.
fn lines_match(wanted: &[&str], lines: &[String]) -> bool {
    match wanted.split_first() {
        None => lines.is_empty(),
        Some((&"…", others)) => (0..=lines.len()).any(|at| lines_match(others, &lines[at..])),
        Some((first, others)) => lines
            .split_first()
            .is_some_and(|(line, rest)| line_matches(first, line) && lines_match(others, rest)),
    }
}

/// Returns what a command has written, as a session has it, if it is not what the session says.
fn fault_of(folder: &Folder, step: &Step) -> Option<String> {
    let Step { line, command, .. } = step;
    let output = run_in(folder, command);
    let status = format!("[{}]", output.status.code().unwrap_or(-1));
    let (stdout, stderr) = (lines_of(&output.stdout), lines_of(&output.stderr));
    let (errors, mut wanted): (Vec<&str>, Vec<&str>) =
        step.wanted.iter().partition(|line| line.starts_with("2>"));
    let errors: Vec<_> = errors.iter().map(|line| line[2..].trim_start()).collect();
    let is_status_right = output.status.success() || wanted.pop() == Some(&status);
    if is_status_right && lines_match(&wanted, &stdout) && lines_match(&errors, &stderr) {
        return None;
    }
    let stderr = stderr.iter().map(|line| format!("2> {line}"));
    let written: Vec<_> = stdout.into_iter().chain(stderr).chain([status]).collect();
    let written = written.join("\n  ");
    Some(format!("line {line}:\n  $ {command}\n  {written}\n"))
}

/// Asserts that each command of a session writes what it must.
fn assert_session(session: &str) {
    let mut faults = String::new();
    for part in parts_of(session) {
        let folder = folder_with_runs();
        faults.extend(part.iter().filter_map(|step| fault_of(&folder, step)));
    }
    assert!(faults.is_empty(), "not what it must be:\n{faults}");
}

#[test]
fn options() {
    assert_session(include_str!("sessions/options.txt"));
}

#[test]
fn screens() {
    let script = Command::new("script").arg("--version").output();
    assert!(
        script.is_ok(),
        "install `script` of util-linux, which runs a command on a terminal"
    );
    assert_session(include_str!("sessions/screens.txt"));
}

#[test]
fn streams() {
    assert_session(include_str!("sessions/streams.txt"));
}

#[test]
fn files() {
    assert_session(include_str!("sessions/files.txt"));
}

#[test]
fn commands() {
    assert_session(include_str!("sessions/commands.txt"));
}
