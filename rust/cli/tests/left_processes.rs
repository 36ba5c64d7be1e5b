//! What SIGTERM to `test-report` alone leaves behind, with a real cargo: nothing.
#![cfg(target_os = "linux")]

use crate::common::{Folder, as_user, command, path_of, soon};
use std::fs;
use std::path::Path;
use std::process::{Command, Output};
use std::thread;
use std::time::{Duration, Instant};

/// A build script that writes a file and sleeps.
const SCRIPT: &str = r#"
fn main() {
    println!("cargo::rerun-if-changed=build.rs");
    std::fs::write(std::env::var("SLEEPS").unwrap(), "").unwrap();
    std::thread::sleep(std::time::Duration::from_secs(300));
}
"#;

/// A package with a test and a documentation test that write a file and sleep. The variable names the file.
const PACKAGE: [(&str, &str); 2] = [
    (
        "Cargo.toml",
        "[package]\nname = \"money\"\nversion = \"0.1.0\"\nedition = \"2024\"\n\n[workspace]\n",
    ),
    (
        "src/lib.rs",
        r#"//! ```
//! money::sleep();
//! ```

/// Says that it runs, and sleeps for long.
pub fn sleep() {
    std::fs::write(std::env::var("SLEEPS").unwrap(), "").unwrap();
    std::thread::sleep(std::time::Duration::from_secs(300));
}

#[test]
fn sleeps() {
    sleep();
}
"#,
    ),
];

/// The variable that names the file. Only the processes of a run have it.
const VARIABLE: &str = "SLEEPS";

/// Returns the arguments of the processes that run and have the variable with this value.
fn processes_with(value: &str) -> Vec<String> {
    let variable = format!("{VARIABLE}={value}");
    let processes = fs::read_dir("/proc").expect("it is there").flatten();
    let has_variable = |process: &Path| {
        let variables = fs::read(process.join("environ")).unwrap_or_default();
        let mut variables = variables.split(|byte| *byte == 0);
        variables.any(|it| it == variable.as_bytes())
    };
    processes
        .map(|process| process.path())
        .filter(|process| has_variable(process))
        .map(|process| fs::read_to_string(process.join("cmdline")).unwrap_or_default())
        .collect()
}

/// Sends a signal to a process.
fn send(signal: &str, process: u32) {
    let script = format!("kill -s {signal} {process}");
    let status = Command::new("sh").args(["-c", &script]).status();
    assert!(status.expect("a shell runs").success(), "{signal}");
}

/// Runs the tests of the package with an argument, and sends a signal to `test-report` when one sleeps. Returns what
/// `test-report` wrote, how long it took to end after the signal, and the processes that run one second later.
fn signalled(folder: &Folder, argument: &str, signal: &str) -> (Output, Duration, Vec<String>) {
    let file = folder.file(&format!("sleeps{argument}{signal}"));
    let arguments = ["--", env!("CARGO"), "test", argument];
    let mut command = command("test-report", &arguments);
    let temporary = folder.file("tmp");
    fs::create_dir_all(&temporary).expect("the folder is there");
    as_user(&mut command, &folder.0)
        .env("TMPDIR", temporary)
        .env(VARIABLE, &file);
    let child = command.spawn().expect("the program starts");
    let path = file.clone();
    soon("a test that sleeps", move || {
        while !Path::new(&path).exists() {
            thread::sleep(Duration::from_millis(20));
        }
    });
    assert!(processes_with(&file).len() >= 3, "they have the variable");
    let start = Instant::now();
    send(signal, child.id());
    let output = soon("the end of the program", move || child.wait_with_output());
    let time = start.elapsed();
    thread::sleep(Duration::from_secs(1));
    let left = processes_with(&file);
    (output.expect("the program ends"), time, left)
}

#[test]
fn sigterm_to_the_report_alone_ends_all_processes() {
    let folder = Folder::new("left");
    folder.write(&PACKAGE);
    for (argument, stopped) in [
        ("--lib", "     STOPPED money sleeps\n"),
        (
            "--doc",
            "     STOPPED money (doc tests) src/lib.rs - (line 1)\n",
        ),
    ] {
        let (output, time, left) = signalled(&folder, argument, "TERM");
        let text = String::from_utf8_lossy(&output.stdout);
        assert!(text.contains(stopped), "{text}");
        assert!(text.contains("the run was cancelled (Signal)\n"), "{text}");
        assert!(text.ends_with("\noutcome cancelled\n"), "{text}");
        assert_eq!(output.status.code(), Some(1));
        assert!(time < Duration::from_secs(10), "{time:?}");
        assert_eq!(left, [""; 0], "{argument}");
        // A report that is killed writes nothing.
        let (output, _, left) = signalled(&folder, argument, "KILL");
        assert_eq!(output.status.code(), None);
        assert_eq!(left, [""; 0], "{argument}");
    }
}

#[test]
fn sigterm_while_cargo_builds_ends_a_build_script() {
    let folder = Folder::new("left-build");
    folder.write(&PACKAGE);
    fs::write(folder.file("build.rs"), SCRIPT).expect("the folder is there");
    let (output, time, left) = signalled(&folder, "--lib", "TERM");
    let text = String::from_utf8_lossy(&output.stdout);
    assert!(text.contains("the run was cancelled (Signal)\n"), "{text}");
    assert!(text.ends_with("\noutcome cancelled\n"), "{text}");
    assert_eq!(output.status.code(), Some(1));
    assert!(time < Duration::from_secs(10), "{time:?}");
    assert_eq!(left, [""; 0]);
}

/// A command that leaves two processes behind if it is ended: one that holds its output open, and one that ends 0.3
/// seconds after SIGTERM and then writes a file.
const LEAVES: &str = "\
(trap 'sleep 0.3; : >ended; exit' TERM; : >ready; while [ -e ready ]; do sleep 0.05; done) >/dev/null 2>&1 &
sleep 100
";

/// Ends a command by SIGTERM, and returns how long the report takes until it ends, too.
fn time_to_end() -> Duration {
    let folder = Folder::new("left-command");
    let mut command = command("test-report", &["--", "sh", "-c", LEAVES]);
    let child = command.current_dir(&folder.0).spawn();
    let child = child.expect("the program starts");
    let ready = folder.0.join("ready");
    soon("the process that is left behind", move || {
        while !ready.exists() {
            thread::sleep(Duration::from_millis(20));
        }
    });
    let start = Instant::now();
    send("TERM", child.id());
    let output = soon("the end of the program", move || child.wait_with_output());
    let time = start.elapsed();
    assert_eq!(output.expect("the program ends").status.code(), Some(1));
    assert!(folder.0.join("ended").exists());
    time
}

#[test]
fn sigterm_ends_what_a_command_leaves_behind() {
    // It does not wait until the output was quiet for two seconds. On a busy machine it may take longer once.
    assert!((0..3).any(|_| time_to_end() < Duration::from_secs(2)));
}

/// A shell that starts a process, writes its number to a file, and becomes another program.
const BECOMES: &str = "sleep 300 >/dev/null 2>&1 & echo $! >before; exec \"$@\"";

#[test]
fn sigterm_ends_no_process_that_was_there_before() {
    let folder = Folder::new("left-before");
    let words = [
        "sh",
        path_of("test-report"),
        "--",
        "sh",
        "-c",
        ": >ready; sleep 100",
    ];
    let child = Command::new("sh")
        .args(["-c", BECOMES])
        .args(words)
        .current_dir(&folder.0)
        .spawn()
        .expect("a shell starts");
    let ready = folder.0.join("ready");
    soon("the command", move || {
        while !ready.exists() {
            thread::sleep(Duration::from_millis(20));
        }
    });
    send("TERM", child.id());
    let output = soon("the end of the program", move || child.wait_with_output());
    assert_eq!(output.expect("the program ends").status.code(), Some(1));
    let before = fs::read_to_string(folder.file("before")).expect("it was written");
    let before = before.trim().parse().expect("it is a number");
    assert!(Path::new(&format!("/proc/{before}")).exists());
    send("KILL", before);
}
