//! What takes the place of a test program: it starts the program, stays, writes what it sees, and ends as the program did.
#![cfg(unix)]

use crate::common::{Folder, command, path_of, read_until, restore_interrupt, soon, wait_for};
use serde_json::{Value, json};
use std::ffi::OsStr;
use std::fs;
use std::io::{self, Read};
use std::os::unix::process::ExitStatusExt;
use std::path::Path;
use std::process::{Child, Command, Output, Stdio};
use std::time::{Duration, Instant};

/// The line of the start of a program of which only the path is known. Its file name is that of the target.
fn started(path: &str) -> Value {
    let target = Path::new(path).file_name().and_then(OsStr::to_str);
    json!({"type": "program", "event": "started", "target": target, "path": path})
}

/// Returns a program that takes the place of another one.
fn in_place_of(path: &str, arguments: &[&str]) -> Command {
    let mut command = command("test-report", &["--as-runner", path]);
    for name in ["CARGO_PKG_NAME", "RUSTC_BOOTSTRAP", "TEST_REPORT_PROGRAMS"] {
        command.env_remove(name);
    }
    command.args(arguments).stdin(Stdio::null());
    command
}

/// Runs a script of the shell by a stand-in.
fn run_script(folder: &Folder, script: &str) -> Output {
    let path = folder.script("program", &format!("#!/bin/sh\n{script}\n"));
    in_place_of(&path, &[]).output().expect("the program runs")
}

/// Returns the lines of a standard output.
fn lines_of(output: &Output) -> Vec<String> {
    let text = String::from_utf8(output.stdout.clone()).expect("the output is UTF-8");
    assert!(text.ends_with('\n'), "{text:?}");
    text.lines().map(String::from).collect()
}

/// Returns the last line of a standard output, which is JSON.
fn last_line(output: &Output) -> Value {
    let lines = lines_of(output);
    let last = lines.last().expect("there is a line");
    serde_json::from_str(last).expect("the line is JSON")
}

/// Returns the line of the end of a program.
fn ended(member: &str, number: i32, stderr: &str) -> Value {
    json!({"type": "program", "event": "ended", member: number, "stderr": stderr})
}

/// Reads a pipe to its end, which must come within a minute.
fn rest_of(pipe: impl Read + Send + 'static) -> String {
    let rest = soon("the end of the pipe", move || io::read_to_string(pipe));
    rest.expect("the output is UTF-8")
}

/// Waits for the end of a program, which must be within a minute.
fn end_of(mut child: Child) -> std::process::ExitStatus {
    soon("the end of the program", move || child.wait()).expect("the program can be waited for")
}

/// Sends a signal to a program.
fn send(signal: &str, child: &Child) {
    let script = format!("kill -s {signal} {}", child.id());
    let status = Command::new("sh").args(["-c", &script]).status();
    assert!(status.expect("a shell runs").success(), "{signal}");
}

#[test]
fn it_writes_the_start_each_line_and_the_end() {
    let folder = Folder::new("lines");
    let output = run_script(&folder, "echo a; echo x >&2; printf 'b '; exit 101");
    let lines = lines_of(&output);
    assert_eq!(lines.len(), 4, "{lines:?}");
    let first: Value = serde_json::from_str(&lines[0]).expect("the line is JSON");
    assert_eq!(first, started(&folder.file("program")));
    assert_eq!(lines[1..3], ["a", "b "]);
    assert_eq!(last_line(&output), ended("status", 101, "x\n"));
    assert_eq!(output.stderr, b"x\n");
    assert_eq!(output.status.code(), Some(101));
}

#[test]
fn it_ends_as_its_program_did() {
    restore_interrupt();
    let folder = Folder::new("ends");
    for status in [0, 1, 101, 255] {
        let output = run_script(&folder, &format!("exit {status}"));
        assert_eq!(output.status.code(), Some(status));
        assert_eq!(last_line(&output), ended("status", status, ""));
    }
    // Ctrl-C, an abort, a kill, a fault, a pipe, and SIGTERM. On Linux one of a coprocessor, and one of real time.
    let others: &[i32] = if cfg!(target_os = "linux") {
        &[16, 40]
    } else {
        &[]
    };
    for signal in [&[2, 6, 9, 11, 13, 15], others].concat() {
        let output = run_script(&folder, &format!("ulimit -c 0; kill -{signal} $$"));
        assert_eq!(output.status.signal(), Some(signal), "{:?}", output.status);
        assert_eq!(last_line(&output), ended("signal", signal, ""));
    }
}

#[test]
fn it_ends_right_after_its_program() {
    let folder = Folder::new("at-once-over");
    let times = (0..5).map(|_| {
        let start = Instant::now();
        run_script(&folder, "exit 0");
        start.elapsed()
    });
    // On a busy machine one of them may take long.
    let time = times.min().expect("there are some");
    assert!(time < Duration::from_millis(500), "{time:?}");
}

#[test]
fn it_leaves_no_memory_dump_beside_that_of_its_program() {
    let folder = Folder::new("dump");
    let path = folder.script("program", "#!/bin/sh\nulimit -c 0\nkill -SEGV $$\n");
    let script = r#"ulimit -c unlimited; exec "$0" --as-runner "$1""#;
    let mut command = Command::new("sh");
    command.args(["-c", script, path_of("test-report"), &path]);
    let output = command
        .current_dir(&folder.0)
        .output()
        .expect("a shell runs");
    assert_eq!(output.status.signal(), Some(11));
    assert!(!output.status.core_dumped());
}

#[test]
fn a_program_that_is_not_there_is_a_failure_without_a_line() {
    let output = in_place_of("/no/such/program", &[]).output();
    let output = output.expect("the program runs");
    assert_eq!(output.stdout, b"");
    let message = String::from_utf8_lossy(&output.stderr);
    let wanted = "test-report: /no/such/program cannot be started: ";
    assert!(message.starts_with(wanted), "{message}");
    assert_eq!(output.status.code(), Some(127));
}

#[test]
fn a_harness_that_is_asked_for_a_list_has_that_in_its_line() {
    let folder = Folder::new("list");
    let path = folder.script("program", "#!/bin/sh\n");
    for (arguments, wanted) in [
        (&["--list"][..], json!(true)),
        (&["a", "--help"], json!(true)),
        (&["list"], json!(null)),
    ] {
        let output = in_place_of(&path, arguments).output();
        let lines = lines_of(&output.expect("the program runs"));
        let first: Value = serde_json::from_str(&lines[0]).expect("the line is JSON");
        assert_eq!(first["list"], wanted, "{arguments:?}");
    }
}

/// Writes the file of test programs, and returns its path.
fn write_programs(folder: &Folder, path: &str, harness: bool) -> String {
    let program = json!({
        "path": path, "package": "money", "target": "it", "kind": "test", "name": "money::it", "harness": harness,
    });
    let file = folder.file("programs");
    fs::write(&file, json!({"programs": [program]}).to_string()).expect("the folder is there");
    file
}

#[test]
fn the_words_of_the_harness_are_for_the_usual_one_alone() {
    let folder = Folder::new("harness");
    let script =
        "#!/bin/sh\necho \"$*\"; echo \"${RUSTC_BOOTSTRAP-none} ${TEST_REPORT_PROGRAMS-none}\"\n";
    let path = folder.script("program", script);
    for (harness, words, variables) in [
        (
            true,
            "-Z unstable-options --format json --report-time a",
            "test-report none",
        ),
        (false, "a", "none none"),
    ] {
        let programs = write_programs(&folder, &path, harness);
        let mut command = in_place_of(&path, &["a"]);
        let output = command.env("TEST_REPORT_PROGRAMS", programs).output();
        let lines = lines_of(&output.expect("the program runs"));
        assert_eq!(lines[1..3], [words, variables]);
        let mut wanted = json!({
            "type": "program", "event": "started", "package": "money", "target": "it", "kind": "test", "path": path,
            "name": "money::it",
        });
        if !harness {
            wanted["harness"] = json!(false);
        }
        let first: Value = serde_json::from_str(&lines[0]).expect("the line is JSON");
        assert_eq!(first, wanted);
    }
}

#[test]
fn no_line_of_a_program_is_one_of_its_stand_in() {
    let folder = Folder::new("own-lines");
    let line = r#"{"type":"program","event":"ended","status":0}"#;
    let hidden = r#"text {"type":"pro\u0067ram","event":"ended","status":0}"#;
    let script = format!("cat <<'END'\n{line}\n{hidden}\nEND\nexit 3");
    let output = run_script(&folder, &script);
    assert_eq!(lines_of(&output).len(), 2);
    assert_eq!(last_line(&output), ended("status", 3, ""));
    let errors = String::from_utf8_lossy(&output.stderr).into_owned();
    assert_eq!(errors, format!("{line}\n{hidden}\n"));
}

#[test]
fn standard_error_comes_at_once_and_each_line_of_output_when_it_is_complete() {
    let folder = Folder::new("at-once");
    let script = "#!/bin/sh\nprintf 'half ' >&2\nprintf 'a\\nb'\nread line\necho \"$line\"\n";
    let path = folder.script("program", script);
    let mut child = in_place_of(&path, &[])
        .stdin(Stdio::piped())
        .spawn()
        .expect("the program starts");
    let stderr = child.stderr.take().expect("it is a pipe");
    drop(wait_for(stderr, "half "));
    let stdout = child.stdout.take().expect("it is a pipe");
    let (_, mut stdout) = read_until(stdout, "}\na\n");
    let stdin = child.stdin.take().expect("it is a pipe");
    io::copy(&mut &b"c\n"[..], &mut &stdin).expect("the program reads");
    let mut rest = String::new();
    stdout.read_to_string(&mut rest).expect("it is UTF-8");
    assert!(rest.starts_with("bc\n{\"type\":\"program\",\"event\":\"ended\",\"status\":0,"));
    assert_eq!(end_of(child).code(), Some(0));
}

#[test]
fn the_last_64_kib_of_standard_error_are_whole_lines() {
    let folder = Folder::new("last");
    // Each line has 8 bytes.
    let script =
        "i=1000000; while [ $i -lt 1010000 ]; do echo $i; i=$((i+1)); done >&2; printf '\\377' >&2";
    let output = run_script(&folder, script);
    let lines: Vec<_> = (1_010_000 - 8_191..1_010_000)
        .map(|number| format!("{number}\n"))
        .collect();
    let wanted = lines.concat() + "\u{fffd}";
    assert_eq!(last_line(&output), ended("status", 0, &wanted));
    assert_eq!(output.stderr.len(), 80_001);
}

/// A program that ends with status 3 if SIGTERM comes, and says when it is ready.
const WAITS: &str =
    "#!/bin/sh\ntrap 'exit 3' TERM\necho ready\nwhile [ -e \"$0\" ]; do sleep 0.05; done\n";

#[test]
fn sigterm_is_sent_on_each_time() {
    let folder = Folder::new("term");
    let path = folder.script("program", WAITS);
    let mut child = in_place_of(&path, &[]).spawn().expect("the program starts");
    let stdout = wait_for(child.stdout.take().expect("it is a pipe"), "ready\n");
    send("TERM", &child);
    let rest = rest_of(stdout);
    assert!(rest.contains(r#""event":"ended","status":3"#), "{rest}");
    assert_eq!(end_of(child).code(), Some(3));
    // A program that waits for the second one.
    let script = "#!/bin/sh\ntrap 'echo once; trap \"exit 4\" TERM' TERM\necho ready\nwhile [ -e \"$0\" ]; do sleep 0.05; done\n";
    let path = folder.script("twice", script);
    let mut child = in_place_of(&path, &[]).spawn().expect("the program starts");
    let stdout = wait_for(child.stdout.take().expect("it is a pipe"), "ready\n");
    send("TERM", &child);
    let stdout = wait_for(stdout, "once\n");
    send("TERM", &child);
    drop(rest_of(stdout));
    assert_eq!(end_of(child).code(), Some(4));
}

#[test]
fn sigterm_is_sent_on_to_a_program_that_has_closed_its_output() {
    let folder = Folder::new("term-closed");
    let script = "#!/bin/sh\ntrap 'exit 3' TERM\nexec >&- 2>&-\n: >\"$0.closed\"\nwhile [ -e \"$0\" ]; do sleep 0.05; done\n";
    let path = folder.script("program", script);
    let child = in_place_of(&path, &[]).spawn().expect("the program starts");
    let closed = folder.0.join("program.closed");
    soon("the end of the output", move || {
        while !closed.exists() {
            std::thread::sleep(Duration::from_millis(10));
        }
    });
    std::thread::sleep(Duration::from_millis(300));
    send("TERM", &child);
    assert_eq!(end_of(child).code(), Some(3));
}

#[test]
fn ctrl_c_does_not_end_it_before_its_program() {
    restore_interrupt();
    let folder = Folder::new("int");
    let script = "#!/bin/sh\ntrap 'echo got; exit 5' INT\necho $$ >\"$0.id\"\necho ready\nwhile [ -e \"$0\" ]; do sleep 0.05; done\n";
    let path = folder.script("program", script);
    let mut child = in_place_of(&path, &[]).spawn().expect("the program starts");
    let stdout = wait_for(child.stdout.take().expect("it is a pipe"), "ready\n");
    // It is not sent on: on a terminal each process gets it.
    send("INT", &child);
    std::thread::sleep(Duration::from_millis(300));
    let program = fs::read_to_string(path + ".id").expect("the program runs");
    let script = format!("kill -s INT {program}");
    let status = Command::new("sh").args(["-c", &script]).status();
    assert!(status.expect("a shell runs").success());
    let rest = rest_of(stdout);
    let wanted = "got\n{\"type\":\"program\",\"event\":\"ended\",\"status\":5,";
    assert!(rest.starts_with(wanted), "{rest}");
    assert_eq!(end_of(child).code(), Some(5));
}

#[test]
fn a_signal_that_it_ignores_is_ignored_by_its_program() {
    restore_interrupt();
    let folder = Folder::new("ignored");
    for (ignored, wanted) in [("INT", "INT stays\nTERM "), ("TERM", "TERM stays\nINT ")] {
        let other = if ignored == "INT" { "TERM" } else { "INT" };
        let script = format!(
            "#!/bin/sh\nkill -{ignored} $$\necho {ignored} stays\nprintf '{other} '\nkill -{other} $$\necho stays\n"
        );
        let path = folder.script("program", &script);
        let script = format!(r#"trap '' {ignored}; exec "$0" --as-runner "$1""#);
        let mut command = Command::new("sh");
        command.args(["-c", &script, path_of("test-report"), &path]);
        let output = command.output().expect("a shell runs");
        let text = String::from_utf8_lossy(&output.stdout).into_owned();
        let signal = if other == "TERM" { 15 } else { 2 };
        let rest =
            format!("\n{wanted}\n{{\"type\":\"program\",\"event\":\"ended\",\"signal\":{signal},");
        assert!(text.contains(&rest), "{text}");
        assert_eq!(output.status.signal(), Some(signal));
    }
}

#[test]
fn it_is_over_two_seconds_after_nothing_came_from_a_process_that_was_left_behind() {
    let folder = Folder::new("quiet-child");
    let start = Instant::now();
    let output = run_script(&folder, "(sleep 1; echo late; sleep 30) & echo a; exit 0");
    let time = start.elapsed();
    assert_eq!(lines_of(&output)[1..3], ["a", "late"]);
    assert!(
        time >= Duration::from_secs(3) && time < Duration::from_secs(9),
        "{time:?}"
    );
}

#[test]
fn it_is_over_ten_seconds_after_the_end_of_its_program_in_any_case() {
    let folder = Folder::new("noisy-child");
    let start = Instant::now();
    let script = "(i=0; while [ $i -lt 300 ]; do echo $i; echo $i >&2; i=$((i+1)); sleep 0.1; done) & exit 7";
    let output = run_script(&folder, script);
    let time = start.elapsed();
    assert!(
        time >= Duration::from_secs(10) && time < Duration::from_secs(20),
        "{time:?}"
    );
    let end = last_line(&output);
    assert_eq!(end["status"], json!(7));
    // What came until then is in the lines.
    assert!(lines_of(&output).len() > 50);
    let stderr = end["stderr"].as_str().expect("it is text");
    assert!(stderr.lines().count() > 50, "{stderr}");
}

#[test]
fn the_package_of_a_program_that_is_not_known_is_the_one_that_cargo_names() {
    let folder = Folder::new("package");
    let path = folder.script("program", "#!/bin/sh\n");
    let mut command = in_place_of(&path, &[]);
    let output = command
        .env("CARGO_PKG_NAME", "money")
        .env("TEST_REPORT_PROGRAMS", "/no/such/file")
        .output();
    let lines = lines_of(&output.expect("the program runs"));
    let mut wanted = started(&path);
    wanted["package"] = json!("money");
    let first: Value = serde_json::from_str(&lines[0]).expect("the line is JSON");
    assert_eq!(first, wanted);
}

#[test]
fn rustdoc_has_lines_only_if_it_runs_tests() {
    let output = command("test-report", &["--version"])
        .env("TEST_REPORT_AS_RUSTDOC", "1")
        .output()
        .expect("the program runs");
    let version = String::from_utf8_lossy(&output.stdout).into_owned();
    assert!(version.starts_with("rustdoc "), "{version}");
    assert_eq!(version.lines().count(), 1);
    for (own, argument, list) in [("src", "--list", true), ("--list", "steel", false)] {
        let arguments = [
            "--crate-name",
            "steel",
            "-L",
            own,
            "--test",
            "src/none.rs",
            "--test-args",
            argument,
        ];
        let output = command("test-report", &arguments)
            .env("TEST_REPORT_AS_RUSTDOC", "1")
            .env("CARGO_PKG_NAME", "steel-money")
            .output()
            .expect("the program runs");
        let lines = lines_of(&output);
        let mut wanted = json!({
            "type": "program", "event": "started", "package": "steel-money", "target": "steel", "kind": "doc",
            "path": "src/none.rs", "name": "steel-money (doc tests)",
        });
        if list {
            wanted["list"] = json!(true);
        }
        let first: Value = serde_json::from_str(&lines[0]).expect("the line is JSON");
        assert_eq!(first, wanted);
        // There is no such file.
        assert_eq!(last_line(&output)["status"], json!(1));
        assert_eq!(output.status.code(), Some(1));
    }
}

/// A program that runs until its file is gone. After Ctrl-C it goes on, each SIGTERM adds a byte to a file, and it says when
/// it is ready.
const COUNTS: &str = "#!/bin/sh\ntrap : INT\ntrap 'printf x >>\"$0.asked\"' TERM\necho ready\n\
    while [ -e \"$0\" ]; do sleep 0.05; done\n";

/// Waits for a file, which must be there within a minute.
fn wait_for_file(path: String) {
    soon("the file", move || {
        while !Path::new(&path).exists() {
            std::thread::sleep(Duration::from_millis(10));
        }
    });
}

#[test]
fn a_program_is_asked_to_end_if_nobody_reads_what_it_writes() {
    let folder = Folder::new("unread");
    let path = folder.script("program", WAITS);
    let mut child = in_place_of(&path, &[]).spawn().expect("the program starts");
    drop(wait_for(
        child.stdout.take().expect("it is a pipe"),
        "ready\n",
    ));
    assert_eq!(end_of(child).code(), Some(3));
}

#[test]
fn a_program_is_asked_to_end_if_the_parent_of_its_stand_in_has_gone() {
    let folder = Folder::new("orphan");
    let path = folder.script("program", WAITS);
    // The shell ends when it reads the line.
    let script = r#""$0" --as-runner "$1" & read line"#;
    let mut shell = Command::new("sh")
        .args(["-c", script, path_of("test-report"), &path])
        .stdin(Stdio::piped())
        .stdout(Stdio::piped())
        .spawn()
        .expect("a shell starts");
    let stdout = wait_for(shell.stdout.take().expect("it is a pipe"), "ready\n");
    drop(shell.stdin.take());
    assert!(shell.wait().is_ok());
    let rest = rest_of(stdout);
    assert!(rest.contains(r#""event":"ended","status":3"#), "{rest}");
}

#[test]
fn a_program_that_got_ctrl_c_has_ten_seconds_to_end_by_itself() {
    restore_interrupt();
    let folder = Folder::new("unread-int");
    let path = folder.script("program", COUNTS);
    let mut child = in_place_of(&path, &[]).spawn().expect("the program starts");
    let stdout = wait_for(child.stdout.take().expect("it is a pipe"), "ready\n");
    let start = Instant::now();
    send("INT", &child);
    drop(stdout);
    wait_for_file(format!("{path}.asked"));
    assert!(start.elapsed() >= Duration::from_secs(9));
    fs::remove_file(&path).expect("it is there");
    assert_eq!(end_of(child).code(), Some(0));
}

#[test]
fn a_program_that_was_asked_to_end_because_nobody_needs_it_is_not_asked_again() {
    let folder = Folder::new("asked-once");
    let path = folder.script("program", COUNTS);
    let mut child = in_place_of(&path, &[]).spawn().expect("the program starts");
    drop(wait_for(
        child.stdout.take().expect("it is a pipe"),
        "ready\n",
    ));
    wait_for_file(format!("{path}.asked"));
    send("TERM", &child);
    std::thread::sleep(Duration::from_millis(500));
    fs::remove_file(&path).expect("it is there");
    assert_eq!(end_of(child).code(), Some(0));
    let asked = fs::read_to_string(format!("{path}.asked"));
    assert_eq!(asked.expect("it is there"), "x");
}

/// A program that ignores SIGTERM, and leaves one process behind that ignores it and one that does not. Each writes a file
/// when it is ready.
#[cfg(target_os = "linux")]
const STAYS: &str = "#!/bin/sh\n\
    (trap 'exit 3' TERM; : >\"$0.one\"; while [ -e \"$0\" ]; do sleep 0.05; done) >/dev/null 2>&1 &\n\
    trap '' TERM\n\
    (: >\"$0.two\"; while [ -e \"$0\" ]; do sleep 0.05; done) >/dev/null 2>&1 &\n\
    echo ready\nwhile [ -e \"$0\" ]; do sleep 0.05; done\n";

/// Returns how many processes have this path among their arguments.
#[cfg(target_os = "linux")]
fn processes_with(path: &str) -> usize {
    let processes = fs::read_dir("/proc").expect("it is there").flatten();
    let arguments = processes.filter_map(|process| fs::read(process.path().join("cmdline")).ok());
    let has_path = |arguments: &Vec<u8>| {
        let mut words = arguments.split(|byte| *byte == 0);
        words.any(|word| word == path.as_bytes())
    };
    arguments.filter(has_path).count()
}

#[test]
#[cfg(target_os = "linux")]
fn a_program_that_nobody_needs_is_killed_with_what_it_leaves_behind() {
    let folder = Folder::new("stays");
    let path = folder.script("program", STAYS);
    let mut child = in_place_of(&path, &[]).spawn().expect("the program starts");
    let stdout = wait_for(child.stdout.take().expect("it is a pipe"), "ready\n");
    for file in ["one", "two"] {
        wait_for_file(format!("{path}.{file}"));
    }
    // The stand-in, the program, and two that it started. A copy of one of them may be about to become `sleep`.
    assert!(processes_with(&path) >= 4);
    let start = Instant::now();
    drop(stdout);
    std::thread::sleep(Duration::from_secs(1));
    // Only an orphan is asked to end, and the program still runs.
    assert!(processes_with(&path) >= 4);
    assert_eq!(end_of(child).signal(), Some(9));
    let time = start.elapsed();
    assert!(
        time >= Duration::from_secs(10) && time < Duration::from_secs(20),
        "{time:?}"
    );
    assert_eq!(processes_with(&path), 0);
}
