//! Runs of a command, call by call: how its output and its end contradict each other.

use deodarsieve_run::Line;
use deodarsieve_run::SuiteNames;
use deodarsieve_run::TestRun;
use deodarsieve_run::{CargoReport, CommandEnd, Contradiction, Note};

/// The time in microseconds from which on a test is slow.
const SLOW: u64 = 60_000_000;

/// What `cargo test` writes if a test program refuses an option.
const REFUSED: &str = "   Compiling a v0.1.0
     Running unittests src/lib.rs (target/debug/deps/a-0123456789abcdef)
\u{1b}[31merror\u{1b}[0m: the option `Z` is only accepted on the nightly compiler
error: test failed, to rerun pass `--lib`

Caused by:
  process didn't exit successfully: `a-0123456789abcdef` (exit status: 101)
";

/// Returns the contradictions among some notes.
fn contradictions(notes: Vec<Note>) -> Vec<Contradiction> {
    notes
        .into_iter()
        .filter_map(|note| match note {
            Note::Contradiction(contradiction) => Some(contradiction),
            _ => None,
        })
        .collect()
}

/// Passes lines to a run, and returns the contradictions that become known with them.
fn pass_lines(run: &mut TestRun, text: &str) -> Vec<Contradiction> {
    let mut notes = Vec::new();
    for line in text.lines() {
        notes.extend(run.on_line(&Line::read(line.as_bytes())).unwrap());
    }
    contradictions(notes)
}

/// Returns the contradictions that become known at the end of a command with this output.
fn command_ends(output: &str, end: &CommandEnd) -> Vec<Contradiction> {
    let mut run = TestRun::new(SLOW);
    run.on_command_started(SuiteNames::new());
    pass_lines(&mut run, output);
    contradictions(run.finish(Some(end.clone()), false).unwrap().notes)
}

/// Asserts that the only contradiction is that a test program refused an option.
fn assert_refused(contradictions: &[Contradiction]) {
    let [Contradiction::Cargo(report)] = contradictions else {
        panic!("{contradictions:?}");
    };
    let CargoReport {
        line,
        prints,
        cause,
        lacks_events,
    } = report;
    assert!(*lacks_events);
    assert_eq!(line, "error: test failed, to rerun pass `--lib`");
    assert_eq!(
        prints,
        "error: the option `Z` is only accepted on the nightly compiler"
    );
    let process = "process didn't exit successfully: `a-0123456789abcdef` (exit status: 101)";
    assert_eq!(cause.as_deref().map(str::trim_start), Some(process));
}

#[test]
fn a_failure_of_cargo_waits_for_the_end_of_the_command() {
    let mut run = TestRun::new(SLOW);
    run.on_command_started(SuiteNames::new());
    assert!(pass_lines(&mut run, REFUSED).is_empty());
    assert!(pass_lines(&mut run, "   Doc-tests a\n").is_empty());
    let end = CommandEnd::Status { code: 101 };
    assert_refused(&contradictions(run.finish(Some(end), false).unwrap().notes));
}

#[test]
fn a_failure_of_cargo_was_a_print_if_the_command_ended_with_0() {
    let found = command_ends(REFUSED, &CommandEnd::Status { code: 0 });
    assert!(found.is_empty(), "{found:?}");
}

#[test]
fn a_failure_of_cargo_becomes_known_at_the_next_heading() {
    let mut run = TestRun::new(SLOW);
    assert!(pass_lines(&mut run, REFUSED).is_empty());
    assert_refused(&pass_lines(&mut run, "   Doc-tests a\n"));
    assert!(contradictions(run.end_file().unwrap()).is_empty());
}

#[test]
fn the_end_of_a_command_that_was_not_started_is_a_contradiction() {
    let error = "No such file or directory (os error 2)";
    let end = CommandEnd::NotStarted {
        error: String::from(error),
    };
    let found = command_ends("", &end);
    let [Contradiction::Command(CommandEnd::NotStarted { error: said })] = &found[..] else {
        panic!("{found:?}");
    };
    assert_eq!(said, error);
}

#[test]
fn the_end_of_a_command_that_a_signal_ended_is_a_contradiction() {
    let found = command_ends(REFUSED, &CommandEnd::Signal { number: 9 });
    let [
        cargo @ Contradiction::Cargo(_),
        Contradiction::Command(CommandEnd::Signal { number }),
    ] = &found[..]
    else {
        panic!("{found:?}");
    };
    assert_refused(std::slice::from_ref(cargo));
    assert_eq!(*number, 9);
}

#[test]
fn a_status_above_0_is_a_contradiction_if_nothing_says_why() {
    let end = CommandEnd::Status { code: 5 };
    let found = command_ends("printed\n", &end);
    let [
        Contradiction::NoEvent { file: None },
        Contradiction::Command(CommandEnd::Status { code }),
    ] = &found[..]
    else {
        panic!("{found:?}");
    };
    assert_eq!(*code, 5);
    let damaged = r#"{ "type": "test", "event": "failed", "name": "#;
    assert!(command_ends(damaged, &end).is_empty());
}
