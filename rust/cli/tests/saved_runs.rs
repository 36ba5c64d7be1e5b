//! `--save`: the lines of a run as they come, and what `test-report -- cargo test` puts among them.
#![cfg(unix)]

use crate::common::{self, Folder, Running, as_user, command, run, soon, started, wait_for};
use serde_json::{Value, json};
use std::fs;
use std::io;
use std::os::unix::fs::PermissionsExt;
use std::path::Path;
use std::process::{Command, Output};
use std::thread;
use std::time::{Duration, Instant};

/// A package whose targets end in each way.
const PACKAGE: [(&str, &str); 5] = [
    (
        "Cargo.toml",
        "[package]\nname = \"steel-money\"\nversion = \"0.1.0\"\nedition = \"2024\"\n\n[workspace]\n\n\
         [lib]\nname = \"steel\"\n\n[[test]]\nname = \"own\"\nharness = false\n",
    ),
    (
        "src/lib.rs",
        "//! ```\n//! assert_eq!(1, 1);\n//! ```\n\n#[test]\nfn adds() {\n    println!(\"a print\");\n    panic!(\"no money\");\n}\n",
    ),
    (
        "tests/crash.rs",
        "#[test]\nfn crashes() {\n    use std::io::Write;\n    std::io::stderr().write_all(b\"the end\\n\").unwrap();\n    \
         std::process::abort();\n}\n",
    ),
    (
        "tests/own.rs",
        "fn main() {\n    println!(\"{:?}\", std::env::args().skip(1).collect::<Vec<_>>());\n    \
         assert!(std::env::var_os(\"RUSTC_BOOTSTRAP\").is_none());\n}\n",
    ),
    (
        "tests/wide.rs",
        r#"use std::process::Command;

#[test]
fn a_child() {
    let script = "i=0; while [ $i -lt 2000 ]; do echo \"request $i\" >&2; i=$((i+1)); done";
    assert!(Command::new("sh").args(["-c", script]).status().unwrap().success());
}

#[test]
fn fails() {
    println!("{}", "x".repeat(1_000_000));
    panic!("too wide");
}
"#,
    ),
];

/// Returns a run of `test-report` in a folder.
fn report(folder: &Folder, arguments: &[&str]) -> Command {
    let mut command = command("test-report", arguments);
    as_user(&mut command, &folder.0);
    command
}

/// Returns the lines of a saved run.
fn lines_in(path: impl AsRef<Path>) -> Vec<String> {
    let text = fs::read_to_string(path).expect("the run is saved");
    assert!(text.ends_with('\n'), "{text}");
    text.lines().map(String::from).collect()
}

/// Returns the lines of a saved run that a stand-in or the program wrote.
fn run_lines(lines: &[String]) -> Vec<Value> {
    let events = lines
        .iter()
        .filter_map(|line| serde_json::from_str(line).ok());
    events
        .filter(|event: &Value| event["type"] == "program" || event["type"] == "command")
        .collect()
}

/// Returns a path without the folder of the programs and their hash.
fn without_hash(path: &str, folder: &Folder) -> String {
    let programs = folder
        .0
        .canonicalize()
        .expect("it is there")
        .join("target/debug/deps");
    match Path::new(path).strip_prefix(programs) {
        Ok(name) => {
            let name = name.to_str().expect("it is UTF-8");
            name.rsplit_once('-').expect("it has a hash").0.to_string()
        }
        Err(_) => path.to_string(),
    }
}

#[test]
fn a_run_of_cargo_is_saved_line_by_line() {
    let folder = Folder::new("saved");
    folder.write(&PACKAGE);
    let temporary = folder.0.join("temporary");
    fs::create_dir(&temporary).expect("it is new");
    let arguments = ["--save", "run.jsonl", "--", env!("CARGO"), "test"];
    let mut command = report(&folder, &arguments);
    let output = command
        .env("TMPDIR", &temporary)
        .output()
        .expect("the program runs");
    assert_eq!(output.status.code(), Some(1));
    // The file of the test programs is gone.
    assert_eq!(fs::read_dir(&temporary).expect("it is there").count(), 0);
    let lines = lines_in(folder.file("run.jsonl"));
    let mut events = run_lines(&lines);
    for event in &mut events {
        if let Some(path) = event["path"].as_str() {
            event["path"] = without_hash(path, &folder).into();
        }
        // Messages of panics have a number of the thread.
        if event["event"] == "ended" && event["status"] == 101 && event["type"] == "program" {
            event["stderr"] = "".into();
        }
    }
    let started = |target: &str, kind: &str, path: &str, name: &str| {
        json!({
            "type": "program", "event": "started", "package": "steel-money", "target": target, "kind": kind,
            "path": path, "name": name,
        })
    };
    let ended = |member: &str, number: i32, stderr: &str| json!({"type": "program", "event": "ended", member: number, "stderr": stderr});
    let mut own = started("own", "test", "own", "steel-money::own");
    own["harness"] = json!(false);
    assert_eq!(events.len(), 12, "{events:#?}");
    let wanted = [
        json!({"type": "command", "event": "started"}),
        started("steel", "lib", "steel", "steel-money"),
        ended("status", 101, ""),
        started("crash", "test", "crash", "steel-money::crash"),
        ended("signal", 6, "the end\n"),
        own,
        ended("status", 0, ""),
        started("wide", "test", "wide", "steel-money::wide"),
        ended("status", 101, ""),
        started("steel", "doc", "src/lib.rs", "steel-money (doc tests)"),
        ended("status", 0, ""),
    ];
    assert_eq!(events[..11], wanted);
    let last = &events[11];
    assert_eq!(
        (&last["type"], &last["event"]),
        (&json!("command"), &json!("ended"))
    );
    assert_eq!(last["status"], json!(101));
    let error = last["error"].as_str().expect("cargo says why");
    assert!(error.starts_with("error: 3 targets failed:\n"), "{error}");
    // A program with its own harness has no words of another one.
    assert!(lines.contains(&"[]".to_string()), "{lines:?}");
    // A line is whole, however long it is and whatever a child writes meanwhile.
    let wide = lines
        .iter()
        .find(|line| line.len() > 1_000_000)
        .expect("it is saved");
    let event: Value = serde_json::from_str(wide).expect("the line is JSON");
    assert_eq!(
        (&event["name"], &event["event"]),
        (&json!("fails"), &json!("failed"))
    );
    assert!(
        !lines
            .iter()
            .any(|line| line.contains("request ") && !line.contains("\"stderr\""))
    );
    assert_passed_on(&output);
}

/// Asserts what of that run is passed on to standard error.
fn assert_passed_on(output: &Output) {
    let passed_on = String::from_utf8_lossy(&output.stderr);
    for wanted in [
        "\nrequest 1999\n",
        "\nthe end\n",
        "\n[]\n",
        "     Running tests/own.rs (target/debug/deps/own-",
        "\n   Doc-tests steel\n",
    ] {
        assert!(passed_on.contains(wanted), "{wanted:?} in {passed_on}");
    }
    // The report says which tests failed, so cargo's words are left out.
    for hidden in [
        "--as-runner",
        "\"program\"",
        "\"command\"",
        "to rerun pass",
        "didn't exit successfully",
    ] {
        assert!(!passed_on.contains(hidden), "{hidden}");
    }
}

#[test]
fn a_build_that_fails_ends_the_run_with_its_words() {
    let folder = Folder::new("broken");
    folder.write(&PACKAGE);
    fs::write(folder.file("tests/own.rs"), "fn main() { none() }\n").expect("it is a file");
    let arguments = [
        "--save",
        "run.jsonl",
        "--color",
        "always",
        "--",
        env!("CARGO"),
        "test",
    ];
    let mut command = report(&folder, &arguments);
    let output = command.env("CARGO_TERM_COLOR", "always").output();
    assert_eq!(output.expect("the program runs").status.code(), Some(1));
    let lines = lines_in(folder.file("run.jsonl"));
    let lines = lines.iter().map(|line| serde_json::from_str(line));
    let lines: Vec<Value> = lines.map(|line| line.expect("the line is JSON")).collect();
    let [first, between @ .., last] = lines.as_slice() else {
        panic!("the run has a first and a last line: {lines:?}");
    };
    assert_eq!(*first, json!({"type": "command", "event": "started"}));
    let codes: Vec<_> = between
        .iter()
        .filter(|line| line["reason"] == "compiler-message")
        .map(|line| &line["message"]["code"]["code"])
        .filter(|code| !code.is_null())
        .collect();
    assert_eq!(codes, ["E0425"]);
    assert!(between.iter().all(|line| line["reason"] != json!(null)));
    assert_eq!(last["status"], json!(101));
    let error = last["error"].as_str().expect("cargo says why");
    let wanted = "error: could not compile `steel-money` (test \"own\") due to 1 previous error";
    assert!(error.starts_with(wanted), "{error}");
    let report = report(&folder, &["run.jsonl"])
        .output()
        .expect("the program runs");
    let text = "\
could not compile steel-money (test \"own\"): 1 error
    tests/own.rs:1:13: error[E0425]: cannot find function `none` in this scope
outcome failed
";
    assert_eq!(String::from_utf8_lossy(&report.stdout), text);
    assert_eq!(report.status.code(), Some(1));
}

/// Returns the lines of a run of a script `cargo` that builds nothing and then does this.
fn saved_of_script(folder: &Folder, script: &str, options: &[&str]) -> (Output, Vec<String>) {
    let output = run_of_script(folder, script, options).output();
    (
        output.expect("the program runs"),
        lines_in(folder.file("run.jsonl")),
    )
}

/// Returns a run of a script `cargo` that builds nothing and then does this.
fn run_of_script(folder: &Folder, script: &str, options: &[&str]) -> Command {
    let text = format!(
        "#!/bin/sh\ncase \" $* \" in\n*'config get'*|*' metadata '*) exit ;;\n*' --no-run '*) eval \"$BUILD\"; exit ;;\nesac\n{script}\n"
    );
    let cargo = folder.script("cargo", &text);
    let arguments = [&["--save", "run.jsonl"], options, &["--", &cargo, "test"]].concat();
    report(folder, &arguments)
}

/// Returns a line about the end of a command without the time for which its tests ran, which is a number of seconds.
fn without_time(line: &str) -> String {
    let (before, time) = line.rsplit_once(",\"time\":").expect("the line has a time");
    let time = time.strip_suffix('}').expect("the time is the last member");
    assert!(time.parse::<f64>().is_ok_and(|time| time < 60.0), "{line}");
    format!("{before}}}")
}

#[test]
fn the_end_of_a_command_has_the_last_error_unless_it_is_a_success() {
    let folder = Folder::new("error");
    let text =
        "printf 'error: first\\n\\033[1merror\\033[0m: no money\\n\\nCaused by:\\n  none\\n' >&2";
    let error = "error: no money\n\nCaused by:\n  none";
    for (end, wanted) in [
        ("exit 101", json!({"status": 101, "error": error})),
        ("kill -9 $$", json!({"signal": 9, "error": error})),
        ("exit 0", json!({"status": 0})),
    ] {
        let (_, lines) = saved_of_script(&folder, &format!("{text}\n{end}"), &[]);
        let last: Value = serde_json::from_str(&without_time(&lines[1])).expect("it is JSON");
        let mut line = json!({"type": "command", "event": "ended"});
        let members = line.as_object_mut().expect("it is an object");
        members.extend(wanted.as_object().expect("it is an object").clone());
        assert_eq!(last, line);
        assert_eq!(lines[0], r#"{"type":"command","event":"started"}"#);
    }
    let (_, lines) = saved_of_script(&folder, "exit 5", &[]);
    assert_eq!(
        without_time(&lines[1]),
        r#"{"type":"command","event":"ended","status":5}"#
    );
}

#[test]
fn a_negative_status_of_the_command_is_shown_as_it_is() {
    for (status, words) in [
        (-1, "the command ended with status -1, and no line says why"),
        (
            -1_073_741_819,
            "the command ended with status -1073741819, and no line says why",
        ),
        (
            255,
            "the command ended with status 255, and no line says why",
        ),
    ] {
        let lines = [
            json!({"type": "command", "event": "started"}),
            json!({"type": "program", "event": "started", "name": "bank", "list": true}),
            json!({"type": "program", "event": "ended", "status": 0, "stderr": ""}),
            json!({"type": "command", "event": "ended", "status": status}),
        ];
        let lines = lines.map(|line| format!("{line}\n")).concat();
        let output = run("test-report", &[] as &[&str], lines.as_bytes());
        let text = String::from_utf8_lossy(&output.stdout);
        assert!(text.starts_with(&format!("{words}\n---")), "{text}");
    }
}

#[test]
fn a_command_that_is_not_started_has_no_end() {
    let folder = Folder::new("not-started");
    let arguments = ["--save", "run.jsonl", "--", "./cargo", "test"];
    let output = report(&folder, &arguments)
        .output()
        .expect("the program runs");
    assert_eq!(output.status.code(), Some(1));
    let wanted = [
        r#"{"type":"command","event":"started"}"#,
        r#"{"type":"command","event":"ended","error":"No such file or directory (os error 2)"}"#,
    ];
    assert_eq!(lines_in(folder.file("run.jsonl")), wanted);
}

/// A failed test, which a stand-in or a child of a test writes.
const FAILED: &str = r#"{ "type": "test", "event": "started", "name": "adds" }
{ "type": "test", "event": "failed", "name": "adds" }"#;

/// A run of a test that passes, as a stand-in writes it.
const PASSED: &str = r#"{ "type": "suite", "event": "started", "test_count": 1 }
{ "type": "test", "event": "started", "name": "pays" }
{ "type": "test", "event": "ok", "name": "pays" }
{ "type": "suite", "event": "ok", "passed": 1, "failed": 0 }"#;

#[test]
fn what_comes_on_standard_error_is_passed_on_and_is_no_part_of_the_run() {
    let folder = Folder::new("apart");
    let turned_away = r#"{"type":"program","event":"ended","status":0}"#;
    let script = format!(
        "cat <<'END'\n{PASSED}\na print\nEND\nsleep 0.3\ncat >&2 <<'END'\n{FAILED}\ntext {FAILED}\n{turned_away}\nEND\nprintf rest >&2\nprintf end"
    );
    let (output, lines) = saved_of_script(&folder, &script, &["--format", "names"]);
    assert_eq!(output.status.code(), Some(0));
    assert_eq!(output.stdout, b"");
    let passed_on = String::from_utf8_lossy(&output.stderr).into_owned();
    let wanted = format!("text \n{turned_away}\nrest\n");
    assert_eq!(
        passed_on.replace("a print\n", "").replace("end\n", ""),
        wanted
    );
    assert!(passed_on.contains("a print\n") && passed_on.contains("end\n"));
    let mut saved = vec![r#"{"type":"command","event":"started"}"#];
    saved.extend(PASSED.lines());
    saved.extend([
        "a print",
        "end",
        r#"{"type":"command","event":"ended","status":0}"#,
    ]);
    let with_end = |lines: &[String]| {
        let (last, others) = lines.split_last().expect("there are lines");
        let others = others.iter().cloned();
        others.chain([without_time(last)]).collect::<Vec<_>>()
    };
    assert_eq!(with_end(&lines), saved);
    // With this option nothing of it is passed on.
    let (output, again) = saved_of_script(&folder, &script, &["--others", "never"]);
    assert_eq!(output.stderr, b"");
    assert_eq!(with_end(&again), saved);
}

#[test]
fn a_warning_of_the_build_is_not_repeated_and_one_of_a_test_is_passed_on() {
    let folder = Folder::new("warnings");
    let script = format!(
        "echo 'warning: unused' >&2\necho '    Finished' >&2\ncat <<'END'\n{PASSED}\nEND\necho 'warning: unused' >&2"
    );
    let mut command = run_of_script(&folder, &script, &[]);
    command.env(
        "BUILD",
        "echo 'warning: unused' >&2; echo '    Finished' >&2",
    );
    let output = command.output().expect("the program runs");
    let passed_on = String::from_utf8_lossy(&output.stderr);
    let lines: Vec<_> = passed_on.lines().collect();
    assert_eq!(
        lines,
        ["warning: unused", "    Finished", "warning: unused"]
    );
}

/// Starts a script `cargo` that says when it runs, and runs on until SIGTERM comes or the file `go` is there. Returns when
/// the first lines are saved.
fn start_and_wait(folder: &Folder) -> Running {
    let script = format!(
        "trap 'echo late; exit 3' TERM\ncat <<'END'\n{PASSED}\nEND\necho ready >&2\n\
         while [ -e \"$0\" ] && ! [ -e go ]; do sleep 0.05; done\necho late"
    );
    let mut running = started(&mut run_of_script(folder, &script, &[]));
    running.stderr = wait_for(running.stderr, "ready\n");
    let file = folder.0.join("run.jsonl");
    // The lines are in the file while the command runs.
    soon("the saved lines", move || {
        while !fs::read_to_string(&file).is_ok_and(|text| text.lines().count() >= 5) {
            thread::sleep(Duration::from_millis(10));
        }
    });
    running
}

/// Sends a signal to a program.
fn send(signal: &str, running: &Running) {
    let script = format!("kill -s {signal} {}", running.child.id());
    let status = Command::new("sh").args(["-c", &script]).status();
    assert!(status.expect("a shell runs").success(), "{signal}");
}

#[test]
fn the_lines_are_saved_as_they_come_and_say_where_a_signal_was_taken() {
    for (signal, cancelled, end) in [
        ("TERM", "Signal", r#""status":3}"#),
        ("INT", "Interrupt", r#""status":0}"#),
    ] {
        let folder = Folder::new(&format!("cancelled{signal}"));
        let mut running = start_and_wait(&folder);
        send(signal, &running);
        if signal == "INT" {
            // The line is there before the next one of the command.
            thread::sleep(Duration::from_millis(400));
            fs::write(folder.file("go"), "").expect("the folder is there");
        }
        drop(running.stdin);
        io::copy(&mut running.stdout, &mut io::sink()).expect("the report comes");
        running.child.wait().expect("the program ends");
        let lines = lines_in(folder.file("run.jsonl"));
        let cancelled =
            format!(r#"{{"type":"command","event":"cancelled","cancelled":"{cancelled}"}}"#);
        let end = format!(r#"{{"type":"command","event":"ended",{end}"#);
        let [before @ .., last] = &lines[5..] else {
            panic!("{lines:?}");
        };
        assert_eq!(before, [cancelled, "late".into()], "{signal}");
        assert_eq!(without_time(last), end, "{signal}");
    }
}

#[test]
fn a_signal_in_the_build_is_saved_and_nothing_is_run() {
    for (signal, build, cancelled, end) in [
        ("TERM", "trap 'exit 7' TERM", "Signal", r#""status":7}"#),
        ("INT", "", "Interrupt", r#""signal":2}"#),
    ] {
        let folder = Folder::new(&format!("build{signal}"));
        let mut command = run_of_script(&folder, "echo run", &[]);
        let wait = r#"echo built >&2; while [ -e "$0" ] && ! [ -e go ]; do sleep 0.05; done"#;
        let mut running = started(command.env("BUILD", format!("{build}\n{wait}")));
        running.stderr = wait_for(running.stderr, "built\n");
        let first = r#"{"type":"command","event":"started"}"#;
        assert_eq!(lines_in(folder.file("run.jsonl")), [first]);
        send(signal, &running);
        thread::sleep(Duration::from_millis(300));
        fs::write(folder.file("go"), "").expect("the folder is there");
        drop(running.stdin);
        io::copy(&mut running.stdout, &mut io::sink()).expect("the report comes");
        running.child.wait().expect("the program ends");
        let wanted = [
            r#"{"type":"command","event":"started"}"#.to_string(),
            format!(r#"{{"type":"command","event":"cancelled","cancelled":"{cancelled}"}}"#),
            format!(r#"{{"type":"command","event":"ended",{end}"#),
        ];
        assert_eq!(lines_in(folder.file("run.jsonl")), wanted, "{signal}");
    }
}

#[test]
fn a_command_is_over_two_seconds_after_nothing_came_from_a_process_that_was_left_behind() {
    let folder = Folder::new("left");
    let start = Instant::now();
    let (_, lines) = saved_of_script(&folder, "sleep 30 & echo a", &[]);
    let time = start.elapsed();
    assert_eq!(lines[1], "a");
    assert!(
        time >= Duration::from_secs(2) && time < Duration::from_secs(9),
        "{time:?}"
    );
}

/// A package with a warning. Its build script runs again if any file in its folder is new, and counts its runs.
const WATCHED: [(&str, &str); 3] = [
    (
        "money/Cargo.toml",
        "[package]\nname = \"money\"\nversion = \"0.1.0\"\nedition = \"2024\"\n\n[workspace]\n",
    ),
    (
        "money/build.rs",
        "use std::io::Write;\nfn main() {\n    let mut file = std::fs::File::options().create(true).append(true).open(\"../runs\").unwrap();\n    \
         writeln!(file, \"run\").unwrap();\n}\n",
    ),
    (
        "money/src/lib.rs",
        "macro_rules! unused {\n    ($($name:ident)*) => {\n        $(fn $name() {})*\n    };\n}\n\n\
         unused!(a b c d e f g h i j k l m n o p q r s t u v w x y z);\n\n#[test]\nfn adds() {}\n",
    ),
];

#[test]
fn a_run_that_is_saved_in_the_folder_of_a_package_builds_it_once() {
    let folder = Folder::new("watched");
    folder.write(&WATCHED);
    let arguments = ["--save", "run.jsonl", "--", env!("CARGO"), "test", "--lib"];
    for count in 1..=2 {
        let mut command = report(&folder, &arguments);
        let output = command.current_dir(folder.file("money")).output();
        let output = output.expect("the program runs");
        assert_eq!(output.status.code(), Some(0));
        let messages = String::from_utf8_lossy(&output.stderr);
        assert_eq!(messages.matches("Compiling money").count(), 1, "{messages}");
        let runs = fs::read_to_string(folder.file("runs")).expect("the script has run");
        assert_eq!(runs.lines().count(), count);
        let lines = lines_in(folder.file("money/run.jsonl"));
        let warnings = lines
            .iter()
            .filter(|line| line.contains("compiler-message"));
        let size: usize = warnings.map(String::len).sum();
        assert!(size > 16_384, "{lines:?}");
    }
}

#[test]
fn only_the_run_of_a_command_with_stand_ins_is_saved() {
    let folder = Folder::new("refused");
    let old = folder.file("run.jsonl");
    fs::write(&old, "old").expect("the folder is there");
    let file = folder.file("input");
    fs::write(&file, PASSED).expect("the folder is there");
    let option = ["--save", &old];
    let files = format!("test-report: --save {old}: only the run of a command can be saved\n");
    let other = format!(
        "test-report: --save {old}: the run of this command cannot be saved. That needs a `cargo test` or `cargo bench`, no \
         RUSTC_BOOTSTRAP, and no setting that names a runner or a rustdoc\n"
    );
    let cases: [(&[&str], &str); 5] = [
        (&[], &files),
        (&["-"], &files),
        (&[&file], &files),
        (&["--", "sh", "-c", "true"], &other),
        (&["--", "cargo", "nextest", "run"], &other),
    ];
    for (words, message) in cases {
        let output = run("test-report", &[&option[..], words].concat(), b"");
        assert_eq!(
            String::from_utf8_lossy(&output.stderr),
            message,
            "{words:?}"
        );
        assert_eq!(output.status.code(), Some(2));
        assert_eq!(fs::read(&old).expect("it is there"), b"old");
    }
    let mut command = run_of_script(&folder, "echo run", &[]);
    let output = command.env("RUSTC_BOOTSTRAP", "1").output();
    let output = output.expect("the program runs");
    assert!(String::from_utf8_lossy(&output.stderr).contains("cannot be saved"));
    assert_eq!(fs::read(&old).expect("it is there"), b"old");
}

#[test]
fn a_file_that_cannot_be_written_ends_the_program_before_anything_runs() {
    let folder = Folder::new("unwritten");
    fs::write(folder.file("file"), "").expect("the folder is there");
    let script = format!(": >{}", folder.file("ran"));
    let mut command = run_of_script(&folder, &script, &["--json", "old.json"]);
    let arguments = ["--save", "file/run.jsonl", "--", "./cargo", "test"];
    drop(command.output().expect("the program runs"));
    fs::remove_file(folder.file("ran")).expect("the script ran");
    let output = report(&folder, &arguments)
        .output()
        .expect("the program runs");
    let message = String::from_utf8_lossy(&output.stderr);
    assert!(
        message.starts_with("test-report: file/run.jsonl cannot be written: "),
        "{message}"
    );
    assert_eq!(output.status.code(), Some(3));
    assert!(!folder.0.join("ran").exists());
}

#[test]
fn a_temporary_folder_that_cannot_be_written_ends_the_program_before_anything_is_built() {
    let folder = Folder::new("temporary");
    folder.write(&PACKAGE);
    let file = folder.file("Cargo.toml");
    // The last one is there, but no byte can be written, as on a full device.
    for (temporary, script) in [
        (folder.file("none"), r#"exec "$@""#),
        (file, r#"exec "$@""#),
        (
            folder.file("src"),
            r#"trap '' XFSZ; ulimit -f 0; exec "$@""#,
        ),
    ] {
        let mut command = Command::new("sh");
        command
            .args(["-c", script, "sh", common::path_of("test-report"), "--"])
            .args([env!("CARGO"), "test"])
            .env("TMPDIR", &temporary);
        let output = as_user(&mut command, &folder.0)
            .output()
            .expect("the program runs");
        let message = String::from_utf8_lossy(&output.stderr);
        let wanted = format!(
            "test-report: the temporary folder {temporary} cannot be written; set TMPDIR to another one: "
        );
        assert!(message.starts_with(&wanted), "{message}");
        assert_eq!(message.lines().count(), 1, "{message}");
        assert_eq!(String::from_utf8_lossy(&output.stdout), "");
        assert_eq!(output.status.code(), Some(3));
        assert!(!folder.0.join("target").exists(), "nothing is built");
    }
}

#[test]
fn a_folder_is_made_for_the_file_and_its_old_permissions_stay() {
    let folder = Folder::new("made");
    let path = folder.file("a/b/run.jsonl");
    let save = || {
        let mut command = run_of_script(&folder, "echo a", &[]);
        let cargo = folder.file("cargo");
        drop(command.output().expect("the program runs"));
        let arguments = ["--save", "a/b/run.jsonl", "--", &cargo, "test"];
        report(&folder, &arguments)
            .output()
            .expect("the program runs")
    };
    save();
    assert_eq!(lines_in(&path)[1], "a");
    fs::set_permissions(&path, fs::Permissions::from_mode(0o640)).expect("it is there");
    fs::write(&path, "old\n".repeat(100)).expect("it is there");
    save();
    assert_eq!(lines_in(&path).len(), 3);
    let mode = fs::metadata(&path)
        .expect("it is there")
        .permissions()
        .mode();
    assert_eq!(mode & 0o777, 0o640);
    assert_eq!(
        fs::read_dir(folder.file("a/b"))
            .expect("it is there")
            .count(),
        1
    );
}

#[cfg(target_os = "linux")]
#[test]
fn a_write_that_fails_is_said_after_the_report() {
    let folder = Folder::new("full");
    let script = format!("cat <<'END'\n{PASSED}\nEND");
    drop(run_of_script(&folder, &script, &[]).output());
    let arguments = [
        "--save",
        "/dev/full",
        "--json",
        "report.json",
        "--",
        "./cargo",
        "test",
    ];
    let output = report(&folder, &arguments)
        .output()
        .expect("the program runs");
    let text = String::from_utf8_lossy(&output.stdout);
    assert!(text.contains("1 passed"), "{text}");
    let message = String::from_utf8_lossy(&output.stderr);
    assert!(
        message.starts_with("test-report: /dev/full cannot be written: "),
        "{message}"
    );
    assert_eq!(output.status.code(), Some(3));
    assert!(folder.0.join("report.json").exists());
}

#[test]
fn the_run_may_be_saved_to_a_pipe() {
    let folder = Folder::new("pipe");
    let pipe = folder.file("run.jsonl");
    let made = Command::new("mkfifo").arg(&pipe).status();
    assert!(made.expect("mkfifo runs").success());
    let running = started(&mut run_of_script(&folder, "echo a", &[]));
    let text = soon("the end of the pipe", move || fs::read_to_string(pipe));
    let text = text.expect("the lines are text");
    assert_eq!(text.lines().nth(1), Some("a"));
    assert_eq!(text.lines().count(), 3);
    let output = running.child.wait_with_output().expect("the program ends");
    assert_eq!(output.status.code(), Some(1));
}
