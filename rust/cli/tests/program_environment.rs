//! What a test program sees of the process that it is under `test-report`, beside what it sees under `cargo test`.
#![cfg(target_os = "linux")]

use crate::common::{Folder, command, restore_interrupt};
use std::collections::BTreeMap;
use std::fs::{self, File};
use std::process::Command;

/// A test that writes to a file what it sees of its process. The variable names the file.
const TEST: &str = r#"
use std::fs;

/// Returns the lines of a file about a process that begin with one of these words.
fn lines(process: &str, words: &[&str]) -> String {
    let text = fs::read_to_string(format!("/proc/{process}/status")).unwrap();
    let lines = text.lines().filter(|line| words.iter().any(|word| line.starts_with(word)));
    lines.collect::<Vec<_>>().join(" ").replace('\t', "")
}

/// Returns the group and the session of a process.
fn group(process: &str) -> String {
    let text = fs::read_to_string(format!("/proc/{process}/stat")).unwrap();
    let rest = text.rsplit_once(") ").unwrap().1;
    rest.split(' ').skip(2).take(2).collect::<Vec<_>>().join(" ")
}

#[test]
fn sees() {
    let parent = lines("self", &["PPid:"]).replace("PPid:", "");
    let mut descriptors: Vec<_> = fs::read_dir("/proc/self/fd").unwrap().map(|it| it.unwrap().file_name()).collect();
    descriptors.sort();
    let mut seen = vec![
        format!("arguments={:?}", std::env::args().skip(1).collect::<Vec<_>>()),
        format!("program={:?}", std::env::args().next()),
        format!("folder={:?}", std::env::current_dir().unwrap()),
        format!("input={:?}", fs::read_link("/proc/self/fd/0").unwrap()),
        format!("descriptors={descriptors:?}"),
        // The main thread blocks all signals for a moment when it starts the one of the test.
        format!("signals={}", lines("thread-self", &["SigBlk:", "SigIgn:"])),
        format!("parent={}", lines(&parent, &["Name:"])),
        format!("same group={}", group("self") == group(&parent)),
    ];
    seen.extend(std::env::vars().map(|(name, value)| format!("variable {name}={value:?}")));
    fs::write(std::env::var("SEEN").unwrap(), seen.join("\n")).unwrap();
}
"#;

/// The variable that says when cargo uses colours. The program sets it for cargo alone.
const COLOR: &str = "CARGO_TERM_COLOR";

/// Runs a command in a package with that test, and returns what the test saw, by name.
fn seen(folder: &Folder, command: &mut Command) -> BTreeMap<String, String> {
    let file = folder.file("seen");
    for name in [
        "CARGO_TARGET_DIR",
        "RUSTC_BOOTSTRAP",
        "RUSTDOC",
        "GITHUB_ACTIONS",
    ] {
        command.env_remove(name);
    }
    let input = File::open(folder.file("Cargo.toml")).expect("it is there");
    command
        .stdin(input)
        .env("CARGO_NET_OFFLINE", "true")
        .env("SEEN", &file)
        .current_dir(&folder.0);
    let output = command.output().expect("the program runs");
    let messages = String::from_utf8_lossy(&output.stderr);
    assert_eq!(output.status.code(), Some(0), "{messages}");
    let text = fs::read_to_string(&file).expect("the test has run");
    fs::remove_file(&file).expect("it is there");
    let pairs = text.lines().filter_map(|line| line.split_once('='));
    pairs
        .map(|(name, value)| (name.to_string(), value.to_string()))
        .collect()
}

#[test]
fn a_test_program_sees_what_it_sees_under_cargo_alone() {
    restore_interrupt();
    let folder = Folder::new("environment");
    fs::create_dir(folder.0.join("src")).expect("it is new");
    let manifest =
        "[package]\nname = \"sees\"\nversion = \"0.1.0\"\nedition = \"2024\"\n\n[workspace]\n";
    fs::write(folder.file("Cargo.toml"), manifest).expect("the folder is there");
    fs::write(folder.file("src/lib.rs"), TEST).expect("the folder is there");
    let words = ["test", "--lib", "--", "sees"];
    let arguments = [&["--color", "never", "--", env!("CARGO")][..], &words].concat();
    for color in [None, Some("auto")] {
        let mut alone = Command::new(env!("CARGO"));
        let mut reported = command("test-report", &arguments);
        for command in [alone.args(words), &mut reported] {
            command.env_remove(COLOR);
            command.envs(color.map(|color| (COLOR, color)));
        }
        assert_same(seen(&folder, &mut alone), seen(&folder, &mut reported));
    }
}

/// Asserts that a test saw the same under cargo alone and in a report, apart from what must differ.
fn assert_same(mut alone: BTreeMap<String, String>, mut reported: BTreeMap<String, String>) {
    for (name, by_cargo, by_report) in [
        (
            "arguments",
            Some(r#"["sees"]"#),
            Some(r#"["-Z", "unstable-options", "--format", "json", "--report-time", "sees"]"#),
        ),
        ("parent", Some("Name:cargo"), Some("Name:test-report")),
        ("variable RUSTC_BOOTSTRAP", None, Some("\"test-report\"")),
    ] {
        assert_eq!(alone.remove(name).as_deref(), by_cargo, "{name}");
        assert_eq!(reported.remove(name).as_deref(), by_report, "{name}");
    }
    assert!(alone["input"].contains("Cargo.toml"), "{alone:?}");
    assert_eq!(alone["same group"], "true");
    assert_eq!(reported, alone);
}
