//! What `test-report` does after Ctrl-C and SIGTERM.
#![cfg(unix)]

use crate::common::{
    self, Folder, Running, command, end_of_text, read_until, soon, start, started, wait_for,
};
use std::fs::{self, OpenOptions};
use std::io::{self, Read, Write};
use std::os::unix::process::ExitStatusExt;
use std::process::{Child, ChildStderr, Command, ExitStatus, Stdio};
use std::thread;
use std::time::Duration;

/// The first lines of a run: a test that fails.
const FAILED: &str = r#"{ "type": "suite", "event": "started", "test_count": 2 }
{ "type": "test", "event": "started", "name": "adds" }
{ "type": "test", "event": "started", "name": "pays" }
{ "type": "test", "name": "adds", "event": "failed", "stdout": "Error: no such currency\n" }
"#;

/// The last line of that run before it is cut: another test that fails.
const LATER: &str = r#"{ "type": "test", "name": "pays", "event": "failed", "stdout": "Error: no money\n" }
"#;

/// Returns the report of the run if a signal comes after the first failed test. After Ctrl-C the second failed test has
/// only its line. After SIGTERM it is shown as without a signal. That the suite has no last line is no contradiction: the
/// run was cancelled.
fn report_after(signal: &str) -> String {
    let (why, reason, listed) = match signal {
        "INT" => ("", "Interrupt", ""),
        _ => (
            "    Error: no money\n",
            "Signal",
            "        FAIL suite 1 pays: Error: no money\n",
        ),
    };
    let end = end_of_text(
        &format!("        FAIL suite 1 adds: Error: no such currency\n{listed}"),
        "2 failed",
        "2 tests run: 0 passed (0 flaky), 2 failed (0 timed out, 0 crashed), 0 skipped, 0 not run",
        "failed",
    );
    let cancelled = format!("the run was cancelled ({reason})\n");
    let first = "FAIL suite 1 adds\n    Error: no such currency\n";
    [first, "FAIL suite 1 pays\n", why, &cancelled, &end].concat()
}

/// The end of the line that says what the program waits for.
const STILL_READING: &str = "; a second Ctrl-C ends without it\n";

/// Returns how a program ends, which must be within a minute.
fn end_of(mut child: Child) -> ExitStatus {
    soon("the end of the program", move || child.wait()).expect("the program can be waited for")
}

/// Waits until the first signal is over, so that the next one is a second one.
fn wait_for_end_of_first() {
    thread::sleep(Duration::from_millis(500));
}

/// Sends a signal to a program.
fn send(signal: &str, child: &Child) {
    let script = format!("kill -s {signal} {}", child.id());
    let status = Command::new("sh").args(["-c", &script]).status();
    assert!(status.expect("a shell runs").success(), "{signal}");
}

#[test]
fn the_first_signal_leaves_the_summary_and_the_files() {
    let folder = Folder::new("signals");
    for signal in ["INT", "TERM"] {
        let file = folder.file(&format!("{signal}.xml"));
        let mut running = start(&["--junit", &file]);
        running
            .stdin
            .write_all(FAILED.as_bytes())
            .expect("the program reads");
        let (first, stdout) = read_until(running.stdout, "    Error: no such currency\n");
        send(signal, &running.child);
        running
            .stdin
            .write_all(LATER.as_bytes())
            .expect("the program still reads");
        drop(running.stdin);
        let (rest, _) = read_until(stdout, "outcome failed\n");
        assert_eq!([first, rest].concat(), report_after(signal));
        assert_eq!(end_of(running.child).code(), Some(1), "{signal}");
        let xml = fs::read_to_string(&file).expect("the file is there");
        assert!(
            xml.contains("no money") && xml.ends_with("</testsuites>\n"),
            "{xml}"
        );
    }
}

/// Sends two signals to a program, the second one 0.05 seconds after the first. Returns true if it then writes its
/// report.
fn survives(signal: &str, again: &str) -> bool {
    let mut running = start(&[]);
    running
        .stdin
        .write_all(FAILED.as_bytes())
        .expect("the program reads");
    let (first, mut stdout) = read_until(running.stdout, "    Error: no such currency\n");
    let script = format!("kill -s {signal} $0; sleep 0.05; kill -s {again} $0");
    let id = running.child.id().to_string();
    let status = Command::new("sh").args(["-c", &script, &id]).status();
    assert!(status.expect("a shell runs").success(), "{signal}");
    // If the program has ended, nobody reads this.
    let _ = running.stdin.write_all(LATER.as_bytes());
    drop(running.stdin);
    let mut rest = String::new();
    stdout
        .read_to_string(&mut rest)
        .expect("the report is text");
    end_of(running.child).code() == Some(1) && first + &rest == report_after(signal)
}

#[test]
fn two_signals_at_once_are_one() {
    for (signal, again) in [("INT", "INT"), ("TERM", "TERM"), ("INT", "TERM")] {
        // On a busy machine the second signal may come too late.
        assert!((0..5).any(|_| survives(signal, again)), "{signal} {again}");
    }
}

/// Sends SIGTERM to a program, and Ctrl-C after it has read another line. Returns true if it then writes its report, with
/// the tests that became known later shown as after Ctrl-C.
fn is_interrupted_after_sigterm() -> bool {
    let mut running = start(&[]);
    running
        .stdin
        .write_all(FAILED.as_bytes())
        .expect("the program reads");
    let (first, stdout) = read_until(running.stdout, "    Error: no such currency\n");
    send("TERM", &running.child);
    running
        .stdin
        .write_all(b"a print\n")
        .expect("the program still reads");
    let stderr = wait_for(running.stderr, "a print\n");
    send("INT", &running.child);
    // If the program has ended, nobody reads this.
    let _ = running.stdin.write_all(LATER.as_bytes());
    drop((running.stdin, stderr));
    let rest = io::read_to_string(stdout).expect("the report is text");
    end_of(running.child).code() == Some(1) && first + &rest == report_after("INT")
}

#[test]
fn ctrl_c_decides_what_is_shown_if_it_comes_after_sigterm() {
    // On a busy machine the second signal may come too late.
    assert!((0..5).any(|_| is_interrupted_after_sigterm()));
}

#[test]
fn a_second_signal_ends_the_program() {
    for (first, second, number) in [("INT", "INT", 2), ("TERM", "TERM", 15), ("INT", "TERM", 15)] {
        let mut running = start(&["--progress", "always"]);
        running
            .stdin
            .write_all(FAILED.as_bytes())
            .expect("the program reads");
        let stderr = wait_for(running.stderr, "1 of 2 tests, 1 failed");
        send(first, &running.child);
        let stderr = wait_for(stderr, STILL_READING);
        wait_for_end_of_first();
        send(second, &running.child);
        let status = end_of(running.child);
        assert_eq!(status.signal(), Some(number), "{first} {second}");
        drop((running.stdin, stderr));
    }
}

#[test]
fn the_user_is_told_once_what_the_program_waits_for() {
    let folder = Folder::new("told");
    let pipe = folder.file("second");
    let made = Command::new("mkfifo").arg(&pipe).status();
    assert!(made.expect("mkfifo runs").success());
    let mut running = start(&["--progress", "always", "-", &pipe]);
    running
        .stdin
        .write_all([FAILED, LATER].concat().as_bytes())
        .expect("the program reads");
    let line = "2 of 2 tests, 2 failed\u{1b}[?7h";
    let stderr = wait_for(running.stderr, line);
    send("INT", &running.child);
    // The message comes, and then the line of progress once a second, also while the second file is read.
    let (told, stderr) = read_until(stderr, STILL_READING);
    let (first, stderr) = read_lines(stderr, line);
    drop(running.stdin);
    let second = soon("the second file", move || {
        OpenOptions::new().write(true).open(pipe)
    });
    let (again, stderr) = read_lines(stderr, line);
    let told = [told, first, again].concat();
    assert_eq!(told.matches(STILL_READING).count(), 1, "{told:?}");
    drop((second, stderr));
    assert_eq!(end_of(running.child).code(), Some(1));
}

/// Reads a pipe until a text has come three times more. Returns what was read, and the pipe.
fn read_lines(mut pipe: ChildStderr, text: &str) -> (String, ChildStderr) {
    let mut all = String::new();
    for _ in 0..3 {
        let (read, rest) = read_until(pipe, text);
        all += &read;
        pipe = rest;
    }
    (all, pipe)
}

#[test]
#[cfg(target_os = "linux")]
fn the_user_is_told_before_any_input() {
    let running = start(&["--progress", "always"]);
    let file = format!("/proc/{}/status", running.child.id());
    // The second thread starts when all handlers are set.
    let threads = move || {
        let status = fs::read_to_string(&file).expect("the program runs");
        let line = status
            .lines()
            .find_map(|line| line.strip_prefix("Threads:"));
        line.and_then(|line| line.trim().parse::<u32>().ok())
    };
    soon("the second thread", move || {
        while threads().is_none_or(|threads| threads < 2) {
            std::thread::yield_now();
        }
    });
    send("INT", &running.child);
    let stderr = wait_for(running.stderr, STILL_READING);
    drop((running.stdin, stderr));
    assert_eq!(end_of(running.child).code(), Some(1));
}

#[test]
fn a_signal_that_is_ignored_is_no_first_signal() {
    let mut command = Command::new("sh");
    command
        .args([
            "-c",
            r#"trap '' INT; exec "$0""#,
            common::path_of("test-report"),
        ])
        .env_remove("GITHUB_ACTIONS")
        .stdin(Stdio::piped())
        .stdout(Stdio::piped())
        .stderr(Stdio::piped());
    let mut running = started(&mut command);
    running
        .stdin
        .write_all(FAILED.as_bytes())
        .expect("the program reads");
    let (first, stdout) = read_until(running.stdout, "    Error: no such currency\n");
    send("INT", &running.child);
    wait_for_end_of_first();
    send("TERM", &running.child);
    running
        .stdin
        .write_all(LATER.as_bytes())
        .expect("the program still reads");
    drop(running.stdin);
    let (rest, _) = read_until(stdout, "outcome failed\n");
    assert_eq!([first, rest].concat(), report_after("TERM"));
    assert_eq!(end_of(running.child).code(), Some(1));
}

/// A script that writes the start of a run, and the last line when the file `go` is in a folder, the folder is gone, or
/// SIGTERM comes.
const COMMAND: &str = r#"
trap 'printf "%s\n" "$LATER"; exit 3' TERM
printf '%s\n' "$FAILED"
while [ -d "$1" ] && ! [ -e "$1/go" ]; do sleep 0.05; done
printf '%s\n' "$LATER"
exit 101
"#;

/// Asserts the report of a command after a signal, with the time of the command by the clock.
fn assert_report_of_command(report: &str, signal: &str) {
    let (before, after) = report.split_once("2 failed in ").expect("it has a time");
    let (time, after) = after.split_once(" s\n").expect("the time is in seconds");
    assert_eq!(format!("{before}2 failed\n{after}"), report_after(signal));
    let (seconds, tenth) = time.split_once('.').expect("it has a part of a second");
    assert!(
        seconds.parse::<u8>().is_ok_and(|seconds| seconds < 60),
        "{time}"
    );
    assert!(tenth.len() == 1 && tenth.parse::<u8>().is_ok(), "{time}");
}

/// Starts `test-report` with a command that waits until a file is there.
fn start_with_command(folder: &str) -> Running {
    start_with(&["--progress", "always"], folder)
}

/// Starts `test-report` with these options and that command.
fn start_with(options: &[&str], folder: &str) -> Running {
    let mut command = command("test-report", options);
    command
        .arg("--")
        .args(["sh", "-c", COMMAND, "sh", folder])
        .env("FAILED", FAILED.trim_end())
        .env("LATER", LATER.trim_end());
    started(&mut command)
}

#[test]
fn the_first_interrupt_leaves_the_command_alone() {
    let folder = Folder::new("interrupted");
    let running = start_with_command(&folder.file(""));
    let (first, stdout) = read_until(running.stdout, "    Error: no such currency\n");
    send("INT", &running.child);
    let stderr = wait_for(running.stderr, STILL_READING);
    fs::write(folder.file("go"), "").expect("the folder is there");
    let (rest, _) = read_until(stdout, "outcome failed\n");
    assert_report_of_command(&[first, rest].concat(), "INT");
    assert_eq!(end_of(running.child).code(), Some(1));
    drop((running.stdin, stderr));
}

#[test]
fn the_first_sigterm_is_sent_on_to_the_command() {
    let folder = Folder::new("terminated");
    let running = start_with_command(&folder.file(""));
    let (first, stdout) = read_until(running.stdout, "    Error: no such currency\n");
    send("TERM", &running.child);
    let (rest, _) = read_until(stdout, "outcome failed\n");
    assert_report_of_command(&[first, rest].concat(), "TERM");
    assert_eq!(end_of(running.child).code(), Some(1));
    drop((running.stdin, running.stderr));
}

/// A script that closes its output, and then waits for SIGTERM.
const CLOSED: &str = r#"
trap ': >"$1/got"; exit 3' TERM
printf '%s\n' "$FAILED" "$LATER"
exec >&- 2>&-
: >"$1/closed"
while [ -d "$1" ]; do sleep 0.05; done
"#;

#[test]
fn sigterm_is_sent_on_to_a_command_that_has_closed_its_output() {
    let folder = Folder::new("closed");
    let mut command = command("test-report", &["--", "sh", "-c", CLOSED, "sh"]);
    command
        .arg(folder.file(""))
        .env("FAILED", FAILED.trim_end())
        .env("LATER", LATER.trim_end());
    let running = started(&mut command);
    let closed = folder.0.join("closed");
    soon("the end of the output", move || {
        while !closed.exists() {
            thread::yield_now();
        }
    });
    // Meanwhile the program sees that the output has ended.
    thread::sleep(Duration::from_millis(500));
    send("TERM", &running.child);
    assert_eq!(end_of(running.child).code(), Some(1));
    assert!(folder.0.join("got").exists());
}

/// Runs the command with a report that shows twice why tests failed, sends a signal after the first failed test, and
/// returns the report.
fn report_with_output_twice(signal: &str) -> String {
    let folder = Folder::new(&format!("twice{signal}"));
    let running = start_with(&["--failure-output", "immediate-final"], &folder.file(""));
    let (first, stdout) = read_until(running.stdout, "    Error: no such currency\n");
    send(signal, &running.child);
    if signal == "INT" {
        fs::write(folder.file("go"), "").expect("the folder is there");
    }
    let (rest, _) = read_until(stdout, "outcome failed\n");
    assert_eq!(end_of(running.child).code(), Some(1), "{signal}");
    drop((running.stdin, running.stderr));
    first + &rest
}

#[test]
fn less_is_shown_of_the_tests_that_end_after_a_signal() {
    // A test that is listed has its short reason there, too.
    for (signal, lines, reasons) in [("INT", 1, 0), ("TERM", 2, 2)] {
        let report = report_with_output_twice(signal);
        let count = |text: &str| report.matches(text).count();
        assert_eq!(count("FAIL suite 1 adds"), 2, "{report}");
        assert_eq!(count(" Error: no such currency\n"), 3, "{report}");
        assert_eq!(count("FAIL suite 1 pays"), lines, "{report}");
        assert_eq!(count(" Error: no money\n"), reasons, "{report}");
        assert!(report.contains(" 2 failed "), "{report}");
    }
}

#[test]
fn a_second_signal_ends_the_program_before_its_command() {
    for (first, second, number) in [("INT", "INT", 2), ("INT", "TERM", 15)] {
        let folder = Folder::new(&format!("second{second}"));
        let running = start_with_command(&folder.file(""));
        let (_, stdout) = read_until(running.stdout, "    Error: no such currency\n");
        send(first, &running.child);
        let stderr = wait_for(running.stderr, STILL_READING);
        wait_for_end_of_first();
        send(second, &running.child);
        assert_eq!(end_of(running.child).signal(), Some(number));
        drop((running.stdin, stdout, stderr));
    }
}

#[test]
fn a_command_starts_with_the_default_action_of_both_signals() {
    // A shell ignores Ctrl-C for a program in the background, and the program's command would inherit that.
    for (signal, number) in [("INT", 2), ("TERM", 15)] {
        let script = r#"trap '' INT TERM; exec "$0" -- sh -c "kill -$1 "'$$; printf %s "$FAILED"'"#;
        let mut command = Command::new("sh");
        command
            .args(["-c", script, common::path_of("test-report"), signal])
            .env("FAILED", FAILED)
            .env_remove("GITHUB_ACTIONS");
        let output = command.output().expect("the program runs");
        let start = format!(
            "no line of the input is of a test run\n\
    \x20   only cargo test, cargo bench and cargo nextest run are given what makes them write JSON; this was: sh\n\
    \x20   cargo test writes such lines with: RUSTC_BOOTSTRAP=1 cargo test -- -Z unstable-options --format json\n\
    the command ended by signal {number}\n"
        );
        let stdout = String::from_utf8_lossy(&output.stdout);
        assert!(stdout.starts_with(&start), "{stdout}");
        assert_eq!(String::from_utf8_lossy(&output.stderr), "");
        assert_eq!(output.status.code(), Some(1));
    }
}

#[test]
fn after_a_signal_the_tests_of_later_files_were_stopped_too() {
    let folder = Folder::new("later-files");
    let later = folder.file("later.jsonl");
    fs::write(&later, FAILED).expect("the folder is there");
    let mut running = start(&["--progress", "always", "-", &later]);
    let written = running.stdin.write_all(FAILED.as_bytes());
    written.expect("the program reads");
    let (_, stdout) = read_until(running.stdout, "    Error: no such currency\n");
    send("INT", &running.child);
    let stderr = wait_for(running.stderr, STILL_READING);
    drop(running.stdin);
    let (text, _) = read_until(stdout, "outcome failed\n");
    assert!(text.contains("\n     STOPPED suite 1 pays\n"), "{text}");
    assert!(text.contains("\n     STOPPED suite 2 pays\n"), "{text}");
    assert_eq!(end_of(running.child).code(), Some(1));
    drop(stderr);
}
