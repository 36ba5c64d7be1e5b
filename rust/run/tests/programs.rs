//! What lines of programs, and of the command that runs them, make known.

use crate::common::{SLOW, finish, take};
use crate::note_lines::{lines_of, read};
use deodarsieve_run::{
    CancelReason, Contradiction, Crash, EarlyEnd, FailureKind, Finished, Line, Note, ProgramEnd,
    ProgramFault, ProgramLine, ProgramRun, RunFailureStep, RunOutcome, SuiteNames, TestOutcome,
    TestRun,
};
use std::collections::BTreeSet;

/// The outcome of a run that failed.
const FAILED: RunOutcome = RunOutcome::Failed {
    step: RunFailureStep::Test,
};

/// The outcome of a run that was cancelled.
const CANCELLED: RunOutcome = RunOutcome::Cancelled {
    step: RunFailureStep::Test,
};

/// A program starts.
const LEDGER: &str = r#"{"type":"program","event":"started","name":"ledger"}
"#;

/// Another one starts.
const BANK: &str = r#"{"type":"program","event":"started","name":"bank"}
"#;

/// A suite in which one test passes.
const PASSING: &str = r#"{"type":"suite","event":"started","test_count":1}
{"type":"test","event":"started","name":"adds"}
{"type":"test","event":"ok","name":"adds"}
{"type":"suite","event":"ok","passed":1,"failed":0}
"#;

/// A suite in which one test fails.
const FAILING: &str = r#"{"type":"suite","event":"started","test_count":1}
{"type":"test","event":"started","name":"adds"}
{"type":"test","event":"failed","name":"adds"}
{"type":"suite","event":"failed","passed":0,"failed":1}
"#;

/// A suite whose two tests run.
const RUNNING: &str = r#"{"type":"suite","event":"started","test_count":3}
{"type":"test","event":"started","name":"adds"}
{"type":"test","event":"started","name":"parses"}
"#;

/// The command ended with status 0.
const DONE: &str = r#"{"type":"command","event":"ended","status":0}
"#;

/// The command ended as cargo does if a test program fails.
const DONE_101: &str = r#"{"type":"command","event":"ended","status":101}
"#;

/// Returns the line of a program that ended: `how` is a member, such as `"status":1`.
fn ended(how: &str, stderr: &str) -> String {
    let stderr = stderr.replace('\n', "\\n");
    format!("{{\"type\":\"program\",\"event\":\"ended\",{how},\"stderr\":\"{stderr}\"}}\n")
}

/// Passes the lines of a text to a run, and returns the notes that they make known.
fn take_lines(run: &mut ProgramRun, text: &str) -> Vec<Note> {
    let mut notes = Vec::new();
    for line in text.lines() {
        let line = Line::read(line.as_bytes());
        notes.extend(run.on_line(&line).expect("the counters have room"));
    }
    notes
}

/// Reads a run of one file. Returns its notes, and its end.
fn read_programs(parts: &[&str]) -> (Vec<Note>, Finished) {
    let mut run = ProgramRun::new(TestRun::new(SLOW));
    let mut notes = take_lines(&mut run, &parts.concat());
    let finished = run.finish(None, false).expect("the counters have room");
    notes.extend(finished.notes.iter().cloned());
    (notes, finished)
}

/// Returns the notes of a run as lines, without the numbers of suites.
fn said(parts: &[&str]) -> Vec<String> {
    let (mut notes, _) = read_programs(parts);
    notes.retain(|note| !matches!(note, Note::Suite(_)));
    lines_of(&notes)
}

/// Returns the outcome and the exit status of a run.
fn outcome(parts: &[&str]) -> (RunOutcome, u8) {
    let (_, finished) = read_programs(parts);
    (finished.end.outcome, finished.status)
}

/// Returns how the first test crashed that did.
fn first_crash(notes: &[Note]) -> Option<&Crash> {
    notes.iter().find_map(|note| match note {
        Note::Test(test) => match &test.outcome {
            TestOutcome::Failed(failure) => match &failure.kind {
                FailureKind::Crashed(crash) => Some(crash),
                _ => None,
            },
            _ => None,
        },
        _ => None,
    })
}

#[test]
fn a_run_of_two_programs_succeeds_and_its_suites_have_their_names() {
    let parts = [
        LEDGER,
        PASSING,
        &ended("\"status\":0", ""),
        BANK,
        PASSING,
        &ended("\"status\":0", ""),
        DONE,
    ];
    assert_eq!(said(&parts), ["ledger: adds passed", "bank: adds passed"]);
    assert_eq!(outcome(&parts), (RunOutcome::Success, 0));
}

#[test]
fn a_status_that_nothing_explains_is_a_contradiction() {
    for (how, line) in [
        ("\"status\":3", "ledger ended by Status(3)"),
        ("\"status\":101", "ledger ended by Status(101)"),
        (
            "\"status\":-1073741819",
            "ledger ended by Status(-1073741819)",
        ),
        ("\"signal\":11", "ledger ended by Signal(11)"),
    ] {
        let parts = [LEDGER, PASSING, &ended(how, ""), DONE_101];
        assert_eq!(said(&parts), ["ledger: adds passed", line]);
        assert_eq!(outcome(&parts), (FAILED, 1));
    }
}

#[test]
fn a_failed_test_explains_status_101_and_no_other_end() {
    let parts = [LEDGER, FAILING, &ended("\"status\":101", ""), DONE_101];
    assert_eq!(said(&parts), ["ledger: adds failed"]);
    for (how, line) in [
        ("\"status\":3", "ledger ended by Status(3)"),
        ("\"signal\":11", "ledger ended by Signal(11)"),
    ] {
        let parts = [LEDGER, FAILING, &ended(how, ""), DONE_101];
        assert_eq!(said(&parts), ["ledger: adds failed", line]);
    }
}

#[test]
fn what_failed_in_another_program_explains_nothing() {
    let failed = ended("\"status\":101", "");
    let parts = [LEDGER, FAILING, &failed, BANK, PASSING, &failed, DONE_101];
    assert_eq!(
        said(&parts),
        [
            "ledger: adds failed",
            "bank: adds passed",
            "bank ended by Status(101)"
        ]
    );
}

#[test]
fn a_crash_explains_any_end_and_has_it() {
    for (how, end) in [
        ("\"signal\":11", ProgramEnd::Signal(11)),
        ("\"status\":7", ProgramEnd::Status(7)),
        ("\"status\":0", ProgramEnd::Status(0)),
    ] {
        let parts = [LEDGER, RUNNING, &ended(how, "one\ntwo\n"), DONE_101];
        assert_eq!(
            said(&parts),
            [
                format!("ledger: adds crashed, 1 of 2 by {end:?}"),
                format!("ledger: parses crashed, 1 of 2 by {end:?}"),
                String::from("ledger: 1 of 3 did not run"),
            ]
        );
        let (notes, _) = read_programs(&parts);
        let crash = first_crash(&notes).expect("a test crashed");
        assert_eq!((crash.end, crash.cause.as_deref()), (Some(end), None));
        assert_eq!(crash.prints.as_str(), "one\ntwo");
    }
}

#[test]
fn an_early_end_of_a_suite_explains_any_end_and_has_it() {
    let (started, _) = PASSING
        .rsplit_once("{\"type\":\"suite\"")
        .expect("the suite has a last line");
    let parts = [LEDGER, started, &ended("\"signal\":11", ""), DONE_101];
    assert_eq!(
        said(&parts),
        ["ledger: adds passed", "ledger ended early by Signal(11)"]
    );
}

#[test]
fn threads_that_overflowed_crashed_and_the_other_tests_were_stopped() {
    for stderr in [
        "\nthread 'parses' (32339) has overflowed its stack\n",
        "thread 'parses' has overflowed its stack",
        "thread 'adds' (7) panicked at src/lib.rs:1:1:\ncaught\nthread 'parses' (8) has overflowed",
    ] {
        let parts = [LEDGER, RUNNING, &ended("\"signal\":6", stderr), DONE_101];
        assert_eq!(
            said(&parts),
            [
                "ledger: parses crashed, 1 of 1 by Signal(6)",
                "ledger: adds was stopped",
                "ledger: 2 of 3 did not run",
            ],
            "{stderr}"
        );
        assert_eq!(outcome(&parts), (FAILED, 1));
    }
}

#[test]
fn threads_that_panicked_crashed_if_none_that_runs_overflowed() {
    let stderr = "thread 'main' has overflowed its stack\nthread 'adds' (7) panicked at src/lib.rs:1:1:\nlost\n";
    let parts = [LEDGER, RUNNING, &ended("\"signal\":6", stderr), DONE_101];
    assert_eq!(
        said(&parts),
        [
            "ledger: adds crashed, 1 of 1 by Signal(6)",
            "ledger: parses was stopped",
            "ledger: 2 of 3 did not run",
        ]
    );
}

#[test]
fn all_running_tests_crashed_if_no_thread_has_the_name_of_one() {
    for stderr in [
        "",
        "thread 'main' (1) has overflowed its stack\n",
        "a thread 'adds' panicked\n",
        "thread 'adds' said that it has overflowed\n",
        "thread 'adds (7) panicked\n",
    ] {
        let parts = [LEDGER, RUNNING, &ended("\"signal\":6", stderr), DONE_101];
        assert_eq!(
            said(&parts)[..2],
            [
                "ledger: adds crashed, 1 of 2 by Signal(6)",
                "ledger: parses crashed, 1 of 2 by Signal(6)",
            ],
            "{stderr}"
        );
    }
}

#[test]
fn a_program_that_runs_no_tests_needs_a_reason() {
    let parts = [LEDGER, &ended("\"status\":0", ""), DONE];
    assert_eq!(said(&parts), ["ledger ran no tests"]);
    assert_eq!(outcome(&parts), (FAILED, 1));
    for reason in ["\"harness\":false", "\"list\":true"] {
        let started =
            format!("{{\"type\":\"program\",\"event\":\"started\",\"name\":\"own\",{reason}}}\n");
        let parts = [&started, &ended("\"status\":0", ""), DONE];
        assert!(said(&parts).is_empty(), "{:?}", said(&parts));
        assert_eq!(outcome(&parts), (RunOutcome::NoTestsRun, 1));
        let parts = [&started, &ended("\"status\":2", ""), DONE_101];
        assert_eq!(said(&parts), ["own ended by Status(2)"]);
    }
}

#[test]
fn a_suite_without_tests_is_a_run_of_tests() {
    let empty = r#"{"type":"suite","event":"started","test_count":0}
{"type":"suite","event":"ok","passed":0,"failed":0}
"#;
    let parts = [LEDGER, empty, &ended("\"status\":0", ""), DONE];
    assert!(said(&parts).is_empty(), "{:?}", said(&parts));
}

#[test]
fn a_program_without_an_end_is_one_fault() {
    for rest in [BANK, DONE] {
        let parts = [LEDGER, PASSING, rest];
        assert_eq!(
            said(&parts)[..2],
            ["ledger: adds passed", "ledger did not end"]
        );
    }
    // Its crash says more.
    let parts = [LEDGER, RUNNING, DONE_101];
    assert_eq!(
        said(&parts),
        [
            "ledger: adds crashed, 1 of 2",
            "ledger: parses crashed, 1 of 2",
            "ledger: 1 of 3 did not run",
        ]
    );
    // An end that names neither a status nor a signal says as little.
    let parts = [
        LEDGER,
        PASSING,
        "{\"type\":\"program\",\"event\":\"ended\"}\n",
        DONE,
    ];
    assert_eq!(said(&parts), ["ledger: adds passed", "ledger did not end"]);
}

#[test]
fn the_end_of_a_program_that_had_not_started_is_a_fault_unless_its_status_is_0() {
    let passed = ended("\"status\":0", "");
    let parts = [LEDGER, PASSING, &passed, &passed, DONE];
    assert_eq!(said(&parts), ["ledger: adds passed"]);
    for (how, line) in [
        ("\"status\":3", "no program ended by Status(3)"),
        ("\"signal\":2", "no program ended by Signal(2)"),
    ] {
        let parts = [LEDGER, PASSING, &passed, &ended(how, ""), DONE];
        assert_eq!(said(&parts), ["ledger: adds passed", line]);
        assert_eq!(outcome(&parts), (FAILED, 1));
    }
}

#[test]
fn a_file_without_its_last_line_is_cut_off() {
    let parts = [LEDGER, PASSING, &ended("\"status\":0", "")];
    assert_eq!(said(&parts), ["ledger: adds passed", "the run was cut off"]);
    assert_eq!(outcome(&parts), (FAILED, 1));
    assert_eq!(said(&[LEDGER, PASSING]).len(), 3);
}

#[test]
fn each_file_says_itself_whether_such_lines_count() {
    let mut run = ProgramRun::new(TestRun::new(SLOW));
    let whole = [LEDGER, PASSING, &ended("\"status\":0", ""), DONE].concat();
    let mut notes = take_lines(&mut run, &whole);
    notes.extend(run.end_file().expect("the counters have room"));
    // This file begins with another line, so the end of a program says nothing.
    let printed = [PASSING, &ended("\"signal\":11", "")].concat();
    notes.extend(take_lines(&mut run, &printed));
    let finished = run.finish(None, false).expect("the counters have room");
    notes.extend(finished.notes);
    notes.retain(|note| !matches!(note, Note::Suite(_)));
    assert_eq!(
        lines_of(&notes),
        ["ledger: adds passed", "suite 2: adds passed"]
    );
    assert_eq!(finished.end.outcome, RunOutcome::Success);
}

#[test]
fn a_test_that_prints_such_lines_ends_no_program() {
    let forged = [
        PASSING,
        "hello\n",
        &ended("\"signal\":11", ""),
        "{\"type\":\"command\",\"event\":\"cancelled\",\"cancelled\":\"Interrupt\"}\n",
        &RUNNING.replace("\"test_count\":3", "\"test_count\":2"),
    ];
    // Without lines of programs the end of the file ends the suite. The run is not cancelled.
    assert_eq!(
        said(&forged)[1..],
        [
            "suite 2: adds crashed, 1 of 2",
            "suite 2: parses crashed, 1 of 2"
        ]
    );
}

#[test]
fn what_cargo_says_is_a_print_while_such_lines_count() {
    let words = "   Doc-tests bank\nerror: test failed, to rerun pass `--lib`\n";
    let parts = [LEDGER, words, PASSING, &ended("\"status\":0", ""), DONE];
    assert_eq!(said(&parts), ["ledger: adds passed"]);
    assert_eq!(outcome(&parts), (RunOutcome::Success, 0));
    // A damaged line says a failure, wherever it is.
    let damaged = "{\"type\":\"test\",\"event\":\"failed\",\"name\":\"a\"b\"}\n";
    let parts = [LEDGER, damaged, PASSING, &ended("\"status\":0", ""), DONE];
    assert_eq!(outcome(&parts), (FAILED, 1));
}

#[test]
fn tests_that_run_when_the_run_is_cancelled_are_stopped() {
    for (word, reason) in [
        ("Interrupt", CancelReason::Interrupt),
        ("Signal", CancelReason::Signal),
    ] {
        let cancelled =
            format!("{{\"type\":\"command\",\"event\":\"cancelled\",\"cancelled\":\"{word}\"}}\n");
        let parts = [
            LEDGER,
            RUNNING,
            &cancelled,
            &ended("\"signal\":11", ""),
            DONE_101,
        ];
        let line = format!("cancelled: {reason:?}");
        assert_eq!(
            said(&parts),
            [
                "ledger: adds was stopped",
                "ledger: parses was stopped",
                &line,
                "ledger: 3 of 3 did not run",
                // The program did not end as it should have, either.
                &line,
            ]
        );
        assert_eq!(outcome(&parts), (CANCELLED, 1));
        let (notes, _) = read_programs(&parts);
        assert!(notes.iter().all(|note| match note {
            Note::Test(test) => test.cancel == Some(reason),
            _ => true,
        }));
    }
}

#[test]
fn a_failure_before_the_cancellation_is_one() {
    let parts = [
        LEDGER,
        FAILING,
        &ended("\"status\":101", ""),
        BANK,
        RUNNING,
        "{\"type\":\"command\",\"event\":\"ended\",\"signal\":2,\"cancelled\":\"Interrupt\"}\n",
    ];
    assert_eq!(outcome(&parts), (FAILED, 1));
    let lines = said(&parts);
    assert_eq!(
        lines[..3],
        [
            "ledger: adds failed",
            "bank: adds was stopped",
            "bank: parses was stopped",
        ]
    );
}

#[test]
fn the_end_that_ctrl_c_may_have_caused_waits_for_the_next_line() {
    for how in [
        "\"signal\":2",
        "\"signal\":15",
        "\"status\":130",
        "\"status\":143",
    ] {
        let started = [LEDGER, RUNNING, &ended(how, "")].concat();
        let mut run = ProgramRun::new(TestRun::new(SLOW));
        assert!(take_lines(&mut run, &started).is_empty(), "{how}");
        let cancelled =
            "{\"type\":\"command\",\"event\":\"cancelled\",\"cancelled\":\"Interrupt\"}\n";
        let line = lines_of(&take_lines(&mut run, cancelled)).remove(0);
        assert_eq!(line, "ledger: adds was stopped", "{how}");
        // Any other line says that it was no Ctrl-C.
        for next in ["hello\n", BANK, PASSING, DONE] {
            let mut run = ProgramRun::new(TestRun::new(SLOW));
            take_lines(&mut run, &started);
            let line = lines_of(&take_lines(&mut run, next)).remove(0);
            assert!(line.starts_with("ledger: adds crashed"), "{how}: {line}");
        }
        // So does the end of the file.
        assert!(said(&[&started])[0].starts_with("ledger: adds crashed"));
    }
    for how in [
        "\"signal\":9",
        "\"status\":2",
        "\"status\":15",
        "\"status\":131",
    ] {
        let mut run = ProgramRun::new(TestRun::new(SLOW));
        let started = [LEDGER, RUNNING, &ended(how, "")].concat();
        assert!(!take_lines(&mut run, &started).is_empty(), "{how}");
    }
}

#[test]
fn the_error_of_the_command_is_known_if_nothing_else_failed() {
    let refused = r#"{"type":"command","event":"ended","status":101,"error":"error: no test target named `x`"}"#;
    let started = "{\"type\":\"command\",\"event\":\"started\"}\n";
    assert_eq!(
        said(&[started, refused]),
        ["ended with status 101: error: no test target named `x`"]
    );
    let parts = [LEDGER, FAILING, &ended("\"status\":101", ""), refused];
    assert_eq!(said(&parts), ["ledger: adds failed"]);
    // Without a status it could not be started.
    let not_started = r#"{"type":"command","event":"ended","error":"no such file"}"#;
    assert_eq!(said(&[started, not_started]), ["not started: no such file"]);
    let signal = r#"{"type":"command","event":"ended","signal":9}"#;
    assert_eq!(said(&[started, signal]), ["ended by signal 9"]);
    assert_eq!(said(&[started, DONE_101]), ["ended with status 101"]);
}

#[test]
fn a_program_without_a_name_has_that_of_its_target_or_of_its_file() {
    for (members, name) in [
        (
            r#""kind":"doc","package":"ledger","target":"x""#,
            "ledger (doc tests)",
        ),
        (
            r#""kind":"test","target":"it","path":"/t/it-0123456789abcdef""#,
            "it",
        ),
        (
            r#""path":"/t/ledger-0123456789abcdef""#,
            "ledger-0123456789abcdef",
        ),
        (r#""kind":"doc""#, "program"),
        (r#""name":"ledger::it","target":"it""#, "ledger::it"),
    ] {
        let line = format!("{{\"type\":\"program\",\"event\":\"started\",{members}}}");
        let line = Line::read(line.as_bytes());
        let Some(ProgramLine::ProgramStarted(start)) = line.program() else {
            panic!("a program starts: {line:?}");
        };
        assert_eq!(start.name, name, "{members}");
    }
}

#[test]
fn a_run_without_such_lines_is_that_of_its_lines() {
    for text in [
        include_str!("samples/purse.jsonl"),
        include_str!("samples/nextest.jsonl"),
        include_str!("samples/forged.jsonl"),
        include_str!("samples/does-not-compile.jsonl"),
    ] {
        let (wanted, end) = read(text);
        let (notes, finished) = read_programs(&[text]);
        assert_eq!(lines_of(&notes), lines_of(&wanted));
        assert_eq!((finished.end, finished.status), (end.end, end.status));
    }
}

#[test]
fn a_command_without_such_lines_can_be_cancelled_too() {
    let mut run = ProgramRun::new(TestRun::new(SLOW));
    run.on_command_started(SuiteNames::new());
    take_lines(&mut run, RUNNING);
    assert_eq!(run.run().tests_started(), 2);
    run.on_cancelled(CancelReason::Interrupt);
    let finished = run.finish(None, true).expect("the counters have room");
    assert_eq!(lines_of(&finished.notes)[0], "suite 1: adds was stopped");
    // A run that was cancelled never passes.
    assert_eq!((finished.end.outcome, finished.status), (CANCELLED, 1));
    let numbers = run.run().numbers();
    assert_eq!(
        format!("{run:?}"),
        format!("ProgramRun {{ numbers: {numbers:?}, .. }}")
    );
}

#[test]
fn a_runner_can_end_all_suites_itself() {
    let mut run = TestRun::new(SLOW);
    take(&mut run, RUNNING);
    let end = EarlyEnd {
        end: Some(ProgramEnd::Status(9)),
        panicked: BTreeSet::from([String::from("parses")]),
        ..EarlyEnd::unknown()
    };
    let notes = run.on_all_ended_early(end).expect("the counters have room");
    assert_eq!(
        lines_of(&notes)[..2],
        [
            "suite 1: parses crashed, 1 of 1 by Status(9)",
            "suite 1: adds was stopped"
        ]
    );
    let notes = run
        .on_program_fault(ProgramFault::CutOff)
        .expect("the counters have room");
    assert!(matches!(
        notes[..],
        [Note::Contradiction(Contradiction::Program(
            ProgramFault::CutOff
        ))]
    ));
    assert_eq!(finish(&mut run, None).end.outcome, FAILED);
}
