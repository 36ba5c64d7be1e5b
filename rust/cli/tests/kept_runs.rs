//! The run that is kept in cargo's target folder, cargo's colours, and cargo's words about failures.
#![cfg(unix)]

use crate::common::{self, Folder, as_user, command};
use serde_json::Value;
use std::fs;
use std::process::{Command, Output};

/// A package whose build script runs again if any file in its folder is new, and counts its runs.
const WATCHED: [(&str, &str); 3] = [
    (
        "money/Cargo.toml",
        "[package]\nname = \"money\"\nversion = \"0.1.0\"\nedition = \"2024\"\n\n[workspace]\n\n[lib]\ndoctest = false\n",
    ),
    (
        "money/build.rs",
        "use std::io::Write;\nfn main() {\n    let mut file = std::fs::File::options().create(true).append(true).open(\"../runs\").unwrap();\n    \
         writeln!(file, \"run\").unwrap();\n}\n",
    ),
    (
        "money/src/lib.rs",
        "#[test]\nfn adds() {}\n\n#[test]\nfn fails() {\n    assert!(std::path::Path::new(\"../mended\").exists());\n}\n",
    ),
];

/// Runs `test-report` in a folder with these arguments.
fn report(folder: &Folder, place: &str, arguments: &[&str]) -> Output {
    let mut command = command("test-report", arguments);
    let command = as_user(&mut command, &folder.0).current_dir(folder.file(place));
    command.output().expect("the program runs")
}

/// Returns standard error as a text.
fn errors(output: &Output) -> String {
    String::from_utf8_lossy(&output.stderr).into_owned()
}

/// Returns the lines of the kept run in a target folder.
fn kept(folder: &Folder, target: &str) -> Vec<String> {
    let text = fs::read_to_string(folder.file(&format!("{target}/test-report/last.jsonl")));
    text.expect("the run is kept")
        .lines()
        .map(String::from)
        .collect()
}

#[test]
fn each_run_is_kept_and_nothing_is_compiled_because_of_that() {
    for has_git in [false, true] {
        let folder = Folder::new(&format!("kept-{has_git}"));
        folder.write(&WATCHED);
        if has_git {
            let git = |arguments: &[&str]| {
                let mut git = Command::new("git");
                git.args(arguments)
                    .current_dir(folder.file("money"))
                    .output()
            };
            if git(&["init", "-q"]).is_err() {
                continue;
            }
            folder.write(&[("money/.gitignore", "target\n")]);
            git(&["add", "."]).expect("git runs");
        }
        let documents = ["--json", "../run.json", "--junit", "../run.xml"];
        let cargo = ["--", env!("CARGO"), "test"];
        let files = || ["run.json", "run.xml"].map(|name| fs::read(folder.file(name)).ok());
        for count in 1..=3 {
            let output = report(&folder, "money", &[&documents[..], &cargo].concat());
            assert_eq!(output.status.code(), Some(1));
            let compiled = errors(&output).matches("Compiling money").count();
            assert_eq!(compiled, usize::from(count == 1), "{has_git} {count}");
            let lines = kept(&folder, "money/target");
            assert_eq!(lines[0], r#"{"type":"command","event":"started"}"#);
            let last: Value =
                serde_json::from_str(lines.last().expect("it has one")).expect("it is JSON");
            assert_eq!(
                (&last["type"], &last["status"]),
                (&"command".into(), &101.into())
            );
            // A report of it is that of the run.
            let wanted = (output.stdout, files());
            assert!(wanted.1.iter().all(Option::is_some));
            for name in ["run.json", "run.xml"] {
                fs::remove_file(folder.file(name)).expect("it is there");
            }
            let file = ["target/test-report/last.jsonl"];
            let again = report(&folder, "money", &[&documents[..], &file].concat());
            assert_eq!(again.status.code(), Some(1));
            assert!(String::from_utf8_lossy(&again.stdout).contains("money fails"));
            assert!((again.stdout, files()) == wanted, "{has_git} {count}");
        }
        let runs = fs::read_to_string(folder.file("runs")).expect("the script has run");
        assert_eq!(runs.lines().count(), 1, "{has_git}");
        let names = fs::read_dir(folder.file("money/target/test-report")).expect("it is there");
        assert_eq!(names.count(), 2);
    }
}

#[test]
fn the_folder_is_that_of_cargo_and_a_saved_run_is_not_kept() {
    let folder = Folder::new("target-folder");
    folder.write(&WATCHED);
    let manifest = folder.file("money/Cargo.toml");
    let cargo = ["--", env!("CARGO"), "test", "--manifest-path", &manifest];
    let places = [
        (&["--target-dir", "own"][..], "own"),
        (&["--config", "build.target-dir='set'"], "set"),
        (
            &["--target-dir=last", "--config", "build.target-dir='set2'"],
            "last",
        ),
    ];
    for (options, target) in places {
        report(&folder, ".", &[&cargo[..], options].concat());
        assert!(kept(&folder, target).len() > 5, "{target}");
    }
    let save = ["--save", "run.jsonl"];
    report(
        &folder,
        ".",
        &[&save[..], &cargo, &["--target-dir", "saved"]].concat(),
    );
    let mine = folder.0.join("saved/test-report");
    assert!(mine.join("failed").exists() && !mine.join("last.jsonl").exists());
    assert!(folder.0.join("run.jsonl").exists());
    // What cannot be kept is a message, and not a failure.
    fs::write(folder.file("mended"), "").expect("the folder is there");
    fs::create_dir_all(folder.file("full")).expect("the folder is there");
    fs::write(folder.file("full/test-report"), "").expect("the folder is there");
    let output = report(
        &folder,
        ".",
        &[&cargo[..], &["--target-dir", "full"]].concat(),
    );
    assert_eq!(output.status.code(), Some(0));
    let messages = errors(&output);
    assert!(
        messages.contains("test-report: the run is not kept in "),
        "{messages}"
    );
    let list = "test-report: the list of the failed tests cannot be written: ";
    assert!(messages.contains(list), "{messages}");
}

/// Returns the programs of the list of failed tests in a target folder.
fn list(folder: &Folder, target: &str) -> Value {
    let list = fs::read_to_string(folder.file(&format!("{target}/test-report/failed")));
    let mut list: Value = serde_json::from_str(&list.expect("it is written")).expect("it is JSON");
    list["programs"].take()
}

#[test]
fn a_run_that_is_stopped_leaves_the_programs_that_did_not_start() {
    // Of a cargo that is killed nothing is cancelled.
    for (name, kill) in [("stopped", "TERM $1"), ("killed", "KILL $(cat cargo_id)")] {
        leave_programs_that_did_not_start(name, kill);
    }
}

/// Stops a run while a test waits. `kill` gets the arguments that say which signal it sends to whom; `$1` is the number of the
/// process. Asserts that `--failed` then runs the programs that did not start.
fn leave_programs_that_did_not_start(name: &str, kill: &str) {
    let folder = Folder::new(name);
    let script = format!(
        "#!/bin/sh\necho $$ >\"{}\"\nexec \"{}\" \"$@\"\n",
        folder.file("cargo_id"),
        env!("CARGO")
    );
    let cargo = folder.script("cargo", &script);
    folder.write(&WATCHED);
    folder.write(&[
        ("money/tests/a.rs", "#[test]\nfn waits() {\n    std::fs::write(\"../waits\", \"\").unwrap();\n    \
                              std::thread::sleep(std::time::Duration::from_secs(60));\n}\n\n#[test]\nfn a_passes() {}\n"),
        ("money/tests/b.rs", "#[test]\nfn later() {}\n"),
    ]);
    let arguments = ["--", &cargo, "test", "--", "--test-threads=1"];
    let mut command = command("test-report", &arguments);
    let command = as_user(&mut command, &folder.0).current_dir(folder.file("money"));
    let running = common::started(command);
    let waits = folder.0.join("waits");
    common::soon("the test", move || {
        while !waits.exists() {
            std::thread::sleep(std::time::Duration::from_millis(20));
        }
    });
    let script = format!("kill -s {kill}");
    let mut shell = Command::new("sh");
    shell.args(["-c", &script, "sh", &running.child.id().to_string()]);
    let status = shell.current_dir(&folder.0).status();
    assert!(status.expect("a shell runs").success(), "{script}");
    let (mut child, stdout) = (running.child, running.stdout);
    common::soon("the report", move || std::io::read_to_string(stdout)).expect("it is UTF-8");
    child.wait().expect("it ends");
    let list = list(&folder, "money/target");
    assert_eq!(list["money"]["only"], serde_json::json!(["fails"]));
    assert_eq!(list["money::a"]["except"], serde_json::json!(["a_passes"]));
    assert_eq!(
        list["money::b"],
        serde_json::json!({"tests": null, "except": []})
    );
    let output = report(
        &folder,
        "money",
        &["--failed", "--", env!("CARGO"), "test", "later"],
    );
    assert_eq!(output.status.code(), Some(0), "{}", errors(&output));
    let lines = kept(&folder, "money/target");
    let events = lines.iter().map(|line| serde_json::from_str::<Value>(line));
    let events: Result<Vec<_>, _> = events.collect();
    let events = events.expect("all lines are JSON");
    let started = events
        .iter()
        .filter(|it| it["type"] == "program" && it["event"] == "started");
    let started: Vec<_> = started.map(|program| &program["name"]).collect();
    assert_eq!(started, ["money::b"]);
}

#[test]
fn a_run_whose_reader_goes_away_is_kept_and_so_are_its_failed_tests() {
    let folder = Folder::new("reader");
    let source = r#"#[test]
fn a_fails() {
    panic!();
}

#[test]
fn b_passes() {
    while !std::path::Path::new("../gone").exists() {
        std::thread::sleep(std::time::Duration::from_millis(20));
    }
}

#[test]
fn c_fails() {
    panic!();
}

#[test]
fn d_waits() {
    std::thread::sleep(std::time::Duration::from_secs(60));
}
"#;
    folder.write(&WATCHED);
    folder.write(&[
        ("money/src/lib.rs", source),
        ("money/tests/z.rs", "#[test]\nfn later() {}\n"),
    ]);
    let arguments = ["--", env!("CARGO"), "test", "--", "--test-threads=1"];
    let mut command = command("test-report", &arguments);
    let command = as_user(&mut command, &folder.0).current_dir(folder.file("money"));
    let running = common::started(command);
    drop(common::wait_for(running.stdout, "\n"));
    fs::write(folder.file("gone"), "").expect("the folder is there");
    let mut child = running.child;
    let status = common::soon("the end", move || child.wait()).expect("it ends");
    assert_eq!(status.code(), Some(3));
    let wanted = serde_json::json!({
        "money": {"tests": 4, "except": ["b_passes"], "failed": ["a_fails", "c_fails"]},
        "money::z": {"tests": null, "except": []},
    });
    assert_eq!(list(&folder, "money/target"), wanted);
    let kept = kept(&folder, "money/target");
    assert!(kept.iter().any(|line| line.contains("a_fails")), "{kept:?}");
    let again = report(&folder, "money", &["target/test-report/last.jsonl"]);
    let text = String::from_utf8_lossy(&again.stdout);
    assert!(text.contains("the run was cut off"), "{text}");
}

#[test]
fn what_cargo_says_of_failures_is_not_said_twice() {
    let folder = Folder::new("words");
    folder.write(&WATCHED);
    folder.write(&[
        ("money/tests/crash.rs", "#[test]\nfn crashes() {\n    eprintln!(\"error: mine\");\n    std::process::abort();\n}\n"),
        ("money/tests/says.rs", "#[test]\nfn says() {\n    use std::io::Write;\n    \
                                 std::io::stderr().write_all(b\"error: 7 targets failed: no\\n\").unwrap();\n}\n"),
    ]);
    let output = report(&folder, "money", &["--", env!("CARGO"), "test"]);
    let messages = errors(&output);
    for words in [
        "to rerun pass",
        "error: 2 targets failed:",
        "Caused by:",
        "didn't exit successfully",
        "`--lib`",
    ] {
        assert!(!messages.contains(words), "{words}: {messages}");
    }
    assert!(messages.contains("Running unittests"), "{messages}");
    assert!(
        messages.contains("error: 7 targets failed: no\n"),
        "{messages}"
    );
    let last = kept(&folder, "money/target").pop().expect("it has lines");
    assert!(last.contains("error: 2 targets failed:"), "{last}");
}

#[test]
fn cargo_has_the_colours_of_the_report() {
    let folder = Folder::new("colours");
    let script = "#!/bin/sh\ncase \"$*\" in *--no-run*|*metadata*|*'config get'*) exit 0;; esac\necho \"color ${CARGO_TERM_COLOR-none}\" >&2\n";
    let cargo = folder.script("cargo", script);
    let color = |options: &[&str], variables: &[(&str, &str)]| {
        let words = [
            options,
            &["--", &cargo, "test", "--message-format", "short"],
        ]
        .concat();
        let mut command = command("test-report", &words);
        let command = as_user(&mut command, &folder.0).env("TERM", "xterm");
        let output = command
            .envs(variables.iter().copied())
            .output()
            .expect("the program runs");
        let messages = errors(&output);
        let line = messages
            .lines()
            .find_map(|line| line.strip_prefix("color "));
        line.map(String::from).unwrap_or(messages)
    };
    let set = ("CARGO_TERM_COLOR", "always");
    for (options, variables, wanted) in [
        (&[][..], &[][..], "none"),
        (&["--color", "never"], &[], "never"),
        (&["--color", "never"], &[set], "never"),
        (&["--color", "always"], &[], "always"),
        (&[], &[("NO_COLOR", "1")], "never"),
        (&[], &[("NO_COLOR", "")], "none"),
        (&[], &[("NO_COLOR", "1"), set], "always"),
        (&[], &[("TERM", "dumb")], "never"),
        (&[], &[("TERM", "dumb"), set], "always"),
        (&["--color", "always"], &[("NO_COLOR", "1")], "always"),
    ] {
        assert_eq!(
            color(options, variables),
            wanted,
            "{options:?} {variables:?}"
        );
    }
}
