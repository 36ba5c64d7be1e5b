//! `test-report -- cargo test` and `cargo test-report`, with a real cargo.
#![cfg(unix)]

use crate::common::{Folder, as_user, command};
use std::fs;
use std::path::Path;
use std::process::{Command, Output};

/// The files of a package without dependencies. Each run of its build script adds a line to a file.
const PACKAGE: [(&str, &str); 4] = [
    (
        "Cargo.toml",
        "[package]\nname = \"money\"\nversion = \"0.1.0\"\nedition = \"2024\"\n\n[workspace]\n",
    ),
    (
        "build.rs",
        r#"use std::io::Write;
fn main() {
    println!("cargo::rerun-if-env-changed=RUSTC_BOOTSTRAP");
    let mut file = std::fs::OpenOptions::new().create(true).append(true).open("runs").unwrap();
    writeln!(file, "run").unwrap();
}
"#,
    ),
    (
        "src/lib.rs",
        r#"//! Counts money.
//!
//! ```
//! assert_eq!(money::cents(2), 200);
//! ```
//!
//! ```compile_fail,E0554
//! #![feature(never_type)]
//! ```

/// Returns the cents of an amount.
pub fn cents(amount: u64) -> u64 {
    amount * 100
}

#[test]
fn counts() {
    assert_eq!(cents(1), 100);
}

#[test]
fn fails() {
    panic!("no money");
}

#[test]
fn sees_no_change() {
    let variables = ["TEST_REPORT_AS_RUSTDOC", "TEST_REPORT_PROGRAMS", "RUSTDOC"];
    assert!(variables.iter().all(|name| std::env::var_os(name).is_none()));
}
"#,
    ),
    (
        "tests/it.rs",
        "#[test]\nfn is_killed() {\n    std::process::abort();\n}\n",
    ),
];

/// The report of the package's tests, without times.
const NAMES: &str = "fails\nis_killed\n";

/// Runs a command in a folder.
fn run_in(folder: &Path, command: &mut Command) -> Output {
    as_user(command, folder).output().expect("the program runs")
}

/// Runs `test-report` with the arguments, in a folder.
fn report(folder: &Folder, arguments: &[&str]) -> Output {
    run_in(&folder.0, &mut command("test-report", arguments))
}

/// Returns how often the build script of the package has run.
fn builds(folder: &Folder) -> usize {
    let runs = fs::read_to_string(folder.0.join("runs")).expect("the build script has run");
    runs.lines().count()
}

/// Asserts the standard output and the standard error of a run whose tests fail.
fn assert_failed(output: &Output, stdout: &str, stderr: &str) {
    assert_eq!(String::from_utf8_lossy(&output.stdout), stdout);
    assert_eq!(String::from_utf8_lossy(&output.stderr), stderr);
    assert_eq!(output.status.code(), Some(1));
}

/// Asserts that cargo's messages on standard error name test programs and nothing that was compiled.
fn assert_nothing_compiled(output: &Output) {
    let messages = String::from_utf8_lossy(&output.stderr);
    assert!(
        messages.contains("Running") && !messages.contains("Compiling"),
        "{messages}"
    );
}

#[test]
fn nothing_is_compiled_again_and_documentation_tests_are_run() {
    let folder = Folder::new("again");
    folder.write(&PACKAGE);
    let mut cargo_test = Command::new(env!("CARGO"));
    run_in(&folder.0, cargo_test.args(["test", "--no-fail-fast"]));
    let output = report(&folder, &["--format", "names", "--", env!("CARGO"), "test"]);
    assert_eq!(String::from_utf8_lossy(&output.stdout), NAMES);
    assert_eq!(output.status.code(), Some(1));
    assert_nothing_compiled(&output);
    let output = run_in(&folder.0, Command::new(env!("CARGO")).arg("test"));
    assert_nothing_compiled(&output);
    assert_eq!(builds(&folder), 1);
    let arguments = ["--final-status-level", "pass", "--", env!("CARGO"), "test"];
    let output = report(&folder, &arguments);
    let text = String::from_utf8_lossy(&output.stdout);
    let summary = " 6 tests run: 4 passed (0 flaky), 2 failed (0 timed out, 1 crashed), ";
    assert!(text.contains(summary), "{text}");
    assert!(text.contains("money (doc tests)"), "{text}");
    assert!(text.contains("(signal: 6"), "{text}");
    assert!(!text.contains("--as-runner"), "{text}");
}

#[test]
fn a_runner_of_the_user_is_used_and_a_message_says_its_cost() {
    let folder = Folder::new("runner");
    folder.write(&PACKAGE);
    let runner = "target.'cfg(all())'.runner=['env', 'RUNNER=own']";
    let arguments = [
        "--format",
        "names",
        "--others",
        "never",
        "--",
        env!("CARGO"),
        "test",
        "--config",
        runner,
    ];
    let output = report(&folder, &arguments);
    let message = "test-report: RUSTC_BOOTSTRAP is set for the whole of cargo, because your settings name a runner or a \
                rustdoc: packages whose build script watches this variable are compiled anew\n";
    assert_failed(&output, NAMES, message);
}

#[test]
fn a_runner_for_other_targets_and_a_setting_after_the_subcommand_cost_nothing() {
    let folder = Folder::new("other-runner");
    folder.write(&PACKAGE);
    fs::create_dir(folder.0.join(".cargo")).expect("it is new");
    let runners = "[target.'cfg(target_arch = \"wasm32\")']\nrunner = \"none\"\n\
                   [target.'cfg(all(target_arch = \"arm\", target_os = \"none\"))']\nrunner = \"none\"\n";
    fs::write(folder.0.join(".cargo/config.toml"), runners).expect("the folder is there");
    let arguments = [env!("CARGO"), "test", "--config", "net.retry=2"];
    let mut cargo_test = Command::new(env!("CARGO"));
    run_in(&folder.0, cargo_test.args(["test", "--no-fail-fast"]));
    let output = report(
        &folder,
        &[&["--format", "names", "--"][..], &arguments].concat(),
    );
    assert_eq!(String::from_utf8_lossy(&output.stdout), NAMES);
    assert_nothing_compiled(&output);
    let messages = String::from_utf8_lossy(&output.stderr);
    assert!(!messages.contains("RUSTC_BOOTSTRAP"), "{messages}");
    assert_eq!(builds(&folder), 1);
}

#[cfg(unix)]
#[test]
fn the_end_of_the_output_is_passed_on_without_a_line_feed() {
    let folder = Folder::new("end");
    let script = "#!/bin/sh\ncase \"$*\" in\n*'config get'* | *--no-run*) ;;\n*) printf '  process' ;;\nesac\n";
    folder.script("cargo", script);
    let output = report(&folder, &["--", "./cargo", "test"]);
    assert_eq!(String::from_utf8_lossy(&output.stderr), "  process\n");
}

#[test]
fn a_package_that_does_not_compile_has_annotations() {
    let folder = Folder::new("broken");
    folder.write(&PACKAGE);
    fs::write(folder.0.join("tests/it.rs"), "fn main() { none() }\n").expect("it is a file");
    let output = report(
        &folder,
        &["--format", "github", "--", env!("CARGO"), "test"],
    );
    let text = String::from_utf8_lossy(&output.stdout);
    let annotation = "::error file=tests/it.rs,line=1,col=13,title=could not compile money (test \"it\")\
                      ::error[E0425]: cannot find function `none` in this scope%0A --> tests/it.rs:1:13%0A";
    assert!(text.starts_with(annotation), "{text}");
    let notice = "\n::notice::the tests could not be built, outcome failed\n";
    assert!(text.ends_with(notice), "{text}");
    assert_eq!(text.lines().count(), 2, "{text}");
    assert_eq!(output.status.code(), Some(1));
    let messages = String::from_utf8_lossy(&output.stderr);
    assert!(messages.contains("error[E0425]: cannot find"), "{messages}");
}

#[test]
fn cargo_starts_the_report_as_its_subcommand() {
    let folder = Folder::new("subcommand");
    folder.write(&PACKAGE);
    let lists: [&[&str]; 2] = [
        &["test-report", "--format", "names", "--others", "never"],
        &["--format", "names", "--others", "never"],
    ];
    for arguments in lists {
        for own in [&["--lib", "fail"][..], &["--lib", "--", "fail"]] {
            let arguments = &[arguments, own].concat();
            let output = run_in(&folder.0, &mut command("cargo-test-report", arguments));
            assert_failed(&output, "fails\n", "");
        }
    }
    // Its own options may be anywhere.
    let arguments = ["--lib", "--format=names", "fail", "--others", "never"];
    let output = run_in(&folder.0, &mut command("cargo-test-report", &arguments));
    assert_failed(&output, "fails\n", "");
    let output = run_in(
        &folder.0,
        &mut command("cargo-test-report", &["--format", "nothing"]),
    );
    assert!(output.stderr.starts_with(b"error: "));
    assert_eq!(output.status.code(), Some(2));
    let output = run_in(
        &folder.0,
        &mut command("cargo-test-report", &["test-report", "--help"]),
    );
    let help = String::from_utf8_lossy(&output.stdout);
    assert!(
        help.contains("Usage: cargo test-report [OPTIONS] [ARG]... [-- [ARG]...]"),
        "{help}"
    );
}

#[test]
fn aliases_of_cargo_are_run_as_cargo() {
    let folder = Folder::new("aliases");
    folder.write(&PACKAGE);
    fs::create_dir(folder.0.join(".cargo")).expect("it is new");
    let aliases =
        "[alias]\nta = 'test --lib'\ntb = ['ta', 'fails']\ntest = 'build'\nloop = 'loop --lib'\n";
    fs::write(folder.0.join(".cargo/config.toml"), aliases).expect("the folder is there");
    let output_of = |arguments: &[&str]| {
        let options = [
            "--format",
            "names",
            "--others",
            "never",
            "--",
            env!("CARGO"),
        ];
        let mut command = command("test-report", &[&options, arguments].concat());
        run_in(
            &folder.0,
            command.env("CARGO_ALIAS_OWN_TEST", "tb -- --skip fails"),
        )
    };
    assert_failed(&output_of(&["ta"]), "fails\n", "");
    assert_failed(&output_of(&["tb"]), "fails\n", "");
    assert_failed(&output_of(&["tb", "--", "--skip", "fails"]), "", "");
    assert_failed(&output_of(&["own-test"]), "", "");
    assert_failed(&output_of(&["test"]), NAMES, "");
    assert_failed(
        &output_of(&["--config", "alias.tc='test --test it'", "tc"]),
        "is_killed\n",
        "",
    );
    assert_eq!(output_of(&["loop"]).status.code(), Some(1));
}

#[test]
fn only_another_command_that_writes_no_event_gets_advice() {
    let folder = Folder::new("advice");
    let text_of = |words: &[&str]| {
        let arguments = [&["--others", "never", "--"], words].concat();
        let output = report(&folder, &arguments);
        assert_eq!(output.status.code(), Some(1), "{words:?}");
        String::from_utf8(output.stdout).expect("the report is text")
    };
    let by_hand = "    cargo test writes such lines with: RUSTC_BOOTSTRAP=1 cargo test -- -Z unstable-options --format json\n";
    let advice = |shown: &str| {
        let first = "    only cargo test, cargo bench and cargo nextest run are given what makes them write JSON; this was: ";
        format!("{first}{shown}\n{by_hand}")
    };
    let others: [(&[&str], _); 4] = [
        (&["env", "A=1", "true"], "env"),
        (&["sh", "-c", "exit 3"], "sh"),
        (
            &[
                "sh",
                "-c",
                "echo \"error: test failed, to rerun pass \\`--lib\\`\"; exit 101",
            ],
            "sh",
        ),
        (
            &[env!("CARGO"), "--version", "build"],
            concat!(env!("CARGO"), " --version build"),
        ),
    ];
    for (words, shown) in others {
        let text = text_of(words);
        assert_eq!(text.matches(&advice(shown)).count(), 1, "{text}");
    }
    let event = r#"echo '{ "type": "suite", "event": "started", "test_count": 0 }'"#;
    let text = text_of(&[env!("CARGO"), "test", "--", "--format", "pretty"]);
    let advice = "    the harness writes no lines that can be reported with another --format than json: leave it out\n";
    assert_eq!(text.matches(advice).count(), 1, "{text}");
    let without: [&[&str]; 4] = [
        &["sh", "-c", event],
        &["/no/such/program"],
        &[env!("CARGO"), "test"],
        &[env!("CARGO"), "test", "--no-run"],
    ];
    for words in without {
        let text = text_of(words);
        assert!(
            !text.contains("write JSON") && !text.contains("by itself"),
            "{text}"
        );
    }
}
