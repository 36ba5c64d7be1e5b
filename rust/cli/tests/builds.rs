//! What `test-report -- cargo test` runs before the tests: a cargo that builds them. The cargo here is a script.
#![cfg(unix)]

use crate::common::{self, Folder, Running, command, read_until, soon, started, wait_for};
use std::fs;
use std::process::{Command, Output};

/// The first lines of the script: it builds by the lines in the variable `BUILD`, and otherwise runs a failed test.
const CARGO: &str = r#"#!/bin/sh
case " $* " in
*' --no-run '*) eval "$BUILD" ;;
*) cat ;;
esac
echo "warning: unused" >&2
echo "    Finished in 1.0s" >&2
echo '     Running tests/it.rs (target/it-0123456789abcdef)' >&2
echo '{ "type": "suite", "event": "started", "test_count": 1 }'
echo '{ "type": "test", "event": "started", "name": "adds" }'
echo '{ "type": "test", "event": "failed", "name": "adds" }'
echo '{ "type": "suite", "event": "failed", "passed": 0, "failed": 1 }'
exit 101
"#;

/// A build that warns, and names the test program of the run.
const BUILDS: &str = r#"
echo "$1 $2 $3 $4 $5" >&2
echo "warning: unused" >&2
program=$(pwd -P)/target/it-0123456789abcdef
echo '{"reason":"compiler-artifact","package_id":"money 0.1.0 (x)","profile":{"test":true},"executable":"'$program'",
    ' | tr -d '\n'
echo '"target":{"kind":["test"],"name":"it"}}'
printf "    Finished in 2.0s" >&2
exit 0
"#;

/// Returns a run of a script `cargo` in a folder, which builds in this way. The user has set the variable for the
/// harness.
fn cargo_test(folder: &Folder, options: &[&str], build: &str) -> Command {
    let cargo = folder.script("cargo", CARGO);
    let mut command = command("test-report", options);
    command
        .args(["--", &cargo, "test", "-p", "money"])
        .env("BUILD", build)
        .env("RUSTC_BOOTSTRAP", "1")
        .current_dir(&folder.0);
    command
}

/// Asserts what a program wrote, and that its status is 1.
fn assert_failed(output: &Output, stdout: &str, stderr: &str) {
    assert_eq!(String::from_utf8_lossy(&output.stdout), stdout);
    assert_eq!(String::from_utf8_lossy(&output.stderr), stderr);
    assert_eq!(output.status.code(), Some(1));
}

/// Returns the output of a run whose build is this one.
fn output_of(folder: &Folder, options: &[&str], build: &str) -> Output {
    let output = cargo_test(folder, options, build).output();
    output.expect("the program runs")
}

#[test]
fn a_suite_has_the_name_that_cargo_says_and_a_warning_is_written_once() {
    let folder = Folder::new("names");
    let output = output_of(&folder, &["--format", "github"], BUILDS);
    let report = "\
::error title=money%3A%3Ait adds::money::it adds%0Ano output was captured
::notice::1 tests run: 0 passed (0 flaky), 1 failed (0 timed out, 0 crashed), 0 skipped, 0 not run, outcome failed
";
    let passed_on = "\
test --no-run --message-format json -p
warning: unused
    Finished in 2.0s
    Finished in 1.0s
     Running tests/it.rs (target/it-0123456789abcdef)
";
    assert_failed(&output, report, passed_on);
    let output = output_of(&folder, &["--others", "never"], BUILDS);
    assert!(output.stderr.is_empty());
}

/// A cargo that says with `-q` neither that it compiles nor that it has finished. It repeats a warning, and then a test
/// prints the same line.
const QUIET_CARGO: &str = r#"#!/bin/sh
case " $* " in
*' --no-run '*) echo "warning: unused" >&2; exit 0 ;;
esac
cat <<'END'
warning: unused
{ "type": "suite", "event": "started", "test_count": 1 }
warning: unused
{ "type": "test", "event": "started", "name": "adds" }
{ "type": "test", "event": "ok", "name": "adds" }
{ "type": "suite", "event": "ok", "passed": 1, "failed": 0 }
END
"#;

#[test]
fn what_a_test_prints_is_passed_on_even_if_it_equals_a_warning_of_the_build() {
    let folder = Folder::new("quiet");
    let cargo = folder.script("cargo", QUIET_CARGO);
    let mut command = command("test-report", &["--", &cargo, "test", "-q"]);
    // Both streams of this cargo are one pipe.
    let output = command.env("RUSTC_BOOTSTRAP", "1").output();
    let output = output.expect("the program runs");
    let passed_on = String::from_utf8_lossy(&output.stderr);
    assert_eq!(passed_on, "warning: unused\nwarning: unused\n");
    assert_eq!(output.status.code(), Some(0));
}

#[test]
fn a_path_that_is_not_known_leaves_the_name_of_the_heading() {
    let folder = Folder::new("unknown");
    let build = "echo '{\"reason\":'; echo nothing; exit 0";
    let output = output_of(&folder, &["--status-level", "fail"], build);
    let report = String::from_utf8_lossy(&output.stdout);
    assert!(
        report.starts_with("FAIL it (tests/it.rs) adds\n"),
        "{report}"
    );
}

#[test]
fn nothing_is_run_after_a_build_that_fails() {
    let folder = Folder::new("fails");
    let build = r#"
echo "error: no such currency" >&2
echo "error: could not compile \`money\` (lib)" >&2
exit 101
"#;
    let output = output_of(&folder, &["--format", "names"], build);
    let passed_on = "error: no such currency\nerror: could not compile `money` (lib)\n";
    assert_failed(&output, "", passed_on);
    let output = output_of(&folder, &[], build);
    let report = String::from_utf8_lossy(&output.stdout);
    let wanted = "cargo: error: could not compile `money` (lib)\noutcome failed\n";
    assert_eq!(report, wanted);
}

/// Two messages of the compiler about an error, a message that is damaged, and what is none.
const SAYS: &str = r#"
message='"spans":[],"message":"no such currency","rendered":"error: no such currency\n\n"}}'
for kind in lib lib; do
    printf '%s' '{"reason":"compiler-message","package_id":"a/money#0.1.0","target":{"kind":["'$kind'"],"name":"money"},'
    printf '%s\n' '"message":{"level":"error","code":null,'"$message"
done
echo '{"reason":"compiler-message","message":'
echo '{"reason":"build-script-executed","package_id":"a/money#0.1.0"}'
echo '{"reason":"build-finished","success":false}'
printf 'a macro prints'
exit 101
"#;

#[test]
fn what_is_no_message_of_cargo_is_passed_on() {
    let folder = Folder::new("says");
    let output = output_of(&folder, &["--format", "json"], SAYS);
    let passed_on = "error: no such currency\n\n{\"reason\":\"compiler-message\",\"message\":\na macro prints\n";
    assert_eq!(String::from_utf8_lossy(&output.stderr), passed_on);
    let report = String::from_utf8_lossy(&output.stdout);
    let problems = r#""problems":[{"kind":"compiler error","line":"money (lib test): error: no such currency","#;
    assert!(report.contains(problems), "{report}");
    let output = output_of(&folder, &["--others", "never"], SAYS);
    let report = "\
could not compile money (lib test): 1 error
    money (lib test): error: no such currency
outcome failed
";
    assert_failed(&output, report, "");
}

/// Shell functions that write a message of the compiler, `says LEVEL TEXT`, and that the build is over, `finishes`.
const MESSAGES: &str = r#"
says() {
    printf '%s' '{"reason":"compiler-message","package_id":"a/money#0.1.0","target":{"kind":["lib"],"name":"money"},'
    printf '%s\n' '"message":{"level":"'$1'","code":null,"spans":[],"message":"m","rendered":"'$2'\n"}}'
}
finishes() {
    echo '{"reason":"build-finished","success":true}'
}
"#;

#[test]
fn no_message_is_within_a_line_of_cargo() {
    let folder = Folder::new("whole");
    let build = "
printf '    Fini' >&2; sleep 0.2
says warning unused
sleep 0.2; printf 'shed in 2.0s\\n    Exec' >&2; sleep 0.2
says warning other
exit 0";
    let output = output_of(&folder, &["--format", "names"], &[MESSAGES, build].concat());
    let passed_on = String::from_utf8_lossy(&output.stderr);
    let wanted = "unused\n    Finished in 2.0s\nother\n    Exec\n";
    assert!(passed_on.starts_with(wanted), "{passed_on}");
}

#[test]
fn messages_come_before_what_cargo_says_after_them() {
    let folder = Folder::new("order");
    let build = "
for number in 1 2 3 4 5 6 7 8; do
    says warning said$number
    printf 'after%s\\n' $number >&2
    sleep 0.1
done
exit 0";
    let output = output_of(&folder, &["--format", "names"], &[MESSAGES, build].concat());
    let passed_on = String::from_utf8_lossy(&output.stderr);
    let wanted: String = (1..9)
        .map(|number| format!("said{number}\nafter{number}\n"))
        .collect();
    assert!(passed_on.starts_with(&wanted), "{passed_on}");
}

/// Returns what a program writes to a terminal of this kind. It runs a script `cargo`, which builds in this way.
#[cfg(target_os = "linux")]
fn on_terminal(folder: &Folder, terminal: &str, build: &str) -> String {
    let cargo = folder.script("cargo", CARGO);
    let program = common::path_of("test-report");
    let mut script = Command::new("script");
    script
        .args(["--quiet", "--return", "--command"])
        .args([
            &format!("'{program}' --progress never -- '{cargo}' test"),
            "/dev/null",
        ])
        .env("BUILD", [MESSAGES, build].concat())
        .env("RUSTC_BOOTSTRAP", "1")
        .env("TERM", terminal)
        .env_remove("GITHUB_ACTIONS")
        .current_dir(&folder.0);
    let output = script.output().expect("there is a terminal");
    String::from_utf8_lossy(&output.stdout).replace("\r\n", "\n")
}

#[test]
#[cfg(target_os = "linux")]
fn on_a_terminal_a_warning_waits_for_what_cargo_says_at_its_end() {
    let folder = Folder::new("waits");
    let build = "
both=$(says warning unused; finishes)
printf '%s\\n' \"$both\"
sleep 0.2; printf '    Finished' >&2; sleep 0.2; echo ' in 2.0s' >&2
exit 0";
    let shown = on_terminal(&folder, "xterm", build);
    let wanted = "    Finished in 2.0s\n\r\u{1b}[Kunused\n";
    assert!(shown.starts_with(wanted), "{shown:?}");
}

#[test]
#[cfg(target_os = "linux")]
fn on_a_terminal_messages_come_while_cargo_builds() {
    let folder = Folder::new("meanwhile");
    let build = "
says warning unused
sleep 0.3; echo 'Building' >&2
both=$(says warning other; says error wrong; finishes)
printf '%s\\n' \"$both\"
sleep 0.3; echo 'error: no' >&2
exit 101";
    for (terminal, erased) in [("xterm", "\r\u{1b}[K"), ("dumb", "")] {
        let shown = on_terminal(&folder, terminal, build);
        let wanted = format!(
            "{erased}unused\nBuilding\n{erased}other\n{erased}wrong\nerror: no\n\
             could not compile money (lib): 1 error\n"
        );
        assert_eq!(shown, wanted);
    }
}

#[test]
fn a_process_that_a_build_leaves_does_not_hold_the_run_up() {
    let folder = Folder::new("left");
    let build = "sleep 20 & echo started >&2; exit 0";
    let mut command = cargo_test(&folder, &["--format", "names"], build);
    let output = soon("the end of the program", move || command.output());
    let output = output.expect("the program runs");
    assert_eq!(String::from_utf8_lossy(&output.stdout), "adds\n");
}

/// Starts a run whose build waits for SIGTERM or for the file `go`, and sends this signal. Returns the rest.
fn signal_in_build(folder: &Folder, signal: &str) -> Running {
    let build =
        r#"trap 'exit 7' TERM; echo built >&2; while ! [ -e go ]; do sleep 0.05; done; exit 0"#;
    let mut running = started(&mut cargo_test(folder, &[], build));
    running.stderr = wait_for(running.stderr, "built\n");
    let script = format!("kill -s {signal} {}", running.child.id());
    let status = Command::new("sh").args(["-c", &script]).status();
    assert!(status.expect("a shell runs").success(), "{signal}");
    running
}

#[test]
fn nothing_is_run_after_a_signal_in_a_build() {
    for signal in ["TERM", "INT"] {
        let folder = Folder::new(&format!("build{signal}"));
        let mut running = signal_in_build(&folder, signal);
        if signal == "INT" {
            fs::write(folder.file("go"), "").expect("the folder is there");
        }
        let (report, _) = read_until(running.stdout, "outcome failed\n");
        // How it ended is no contradiction, but nothing has come that is of a test run.
        let reason = if signal == "INT" {
            "Interrupt"
        } else {
            "Signal"
        };
        let lines =
            format!("no line of the input is of a test run\nthe run was cancelled ({reason})\n---");
        assert!(report.starts_with(&lines), "{report}");
        assert!(!report.contains("adds"), "{report}");
        let status = running.child.wait().expect("the program ends");
        assert_eq!(status.code(), Some(1), "{signal}");
    }
}
