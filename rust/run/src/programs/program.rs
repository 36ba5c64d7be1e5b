// Made by tools/erase from crates/test_report_programs/src/program.rt. Do not edit.
//! A test program that runs, and what is wrong with its end.

use crate::events::event::Event;
use crate::events::program::{ProgramEnd, ProgramStart};
use crate::notes::note::{CommandEnd, Contradiction, FailureKind, Note, ProgramFault, TestOutcome};
use crate::programs::names::threads_of;
use crate::run::early::EarlyEnd;

/// The status with which Rust's test harness ends if a test failed.
const TESTS_FAILED: i64 = 101;

/// The numbers of SIGINT and SIGTERM, and the status of a program that ends by itself after one of them.
const SIGINT: u64 = 2;

const SIGTERM: u64 = 15;

const AFTER_SIGINT: i64 = 130;

const AFTER_SIGTERM: i64 = 143;

/// A program that runs.
#[derive(Clone, Debug)]
pub(crate) struct Program {
    /// The name of its suites.
    name: String,

    /// True if it may run no tests: it has its own harness, or lists its tests.
    may_be_empty: bool,

    /// True if one of its suites or tests started.
    ran: bool,

    /// True if a failed test or a contradiction became known since it started.
    failed: bool,

    /// True if a test crashed or a suite ended early since it started.
    broke: bool,
}

/// How a program ended.
#[derive(Clone, Debug)]
pub(crate) struct Over {
    /// Its status, or the signal that ended it.
    pub(crate) end: ProgramEnd,

    /// The end of what it wrote to standard error.
    pub(crate) stderr: String,
}

impl Program {
    /// Returns a program that starts.
    pub(crate) fn start(start: &ProgramStart) -> Program {
        Program {
            name: String::from(start.name.as_str()),
            may_be_empty: start.own_harness || start.lists,
            ran: false,
            failed: false,
            broke: false,
        }
    }

    /// Takes an event, and the notes that it made known.
    pub(crate) fn take(&mut self, starts: bool, notes: &[Note]) {
        self.ran = self.ran || starts;
        self.failed = self.failed || has_cause(notes);
        self.broke = self.broke || has_break(notes);
    }

    /// Returns what is wrong with the program if it ended so.
    pub(crate) fn fault(&self, end: ProgramEnd) -> Option<ProgramFault> {
        if is_zero(end) {
            if self.ran || self.may_be_empty {
                return None;
            }
            let program = self.name.clone();
            return Some(ProgramFault::NoTests { program });
        }
        if self.explains(end) {
            return None;
        }
        let program = self.name.clone();
        Some(ProgramFault::Unexplained { program, end })
    }

    /// Returns what is wrong with the program if no line says how it ended.
    pub(crate) fn lost_fault(&self) -> Option<ProgramFault> {
        if self.failed {
            return None;
        }
        let program = self.name.clone();
        Some(ProgramFault::NoEnd { program })
    }

    /// Returns true if what became known says why the program ended so.
    fn explains(&self, end: ProgramEnd) -> bool {
        match end {
            ProgramEnd::Status(TESTS_FAILED) => self.failed,
            ProgramEnd::Status(_) | ProgramEnd::Signal(_) => self.broke,
        }
    }
}

/// Returns what is wrong with the end of a program, if there is one. `end` is how it ended, if a line says so.
pub(crate) fn fault_of(program: Option<&Program>, end: Option<ProgramEnd>) -> Option<ProgramFault> {
    match (program, end) {
        (Some(program), Some(end)) => program.fault(end),
        (Some(program), None) => program.lost_fault(),
        (None, _) => None,
    }
}

/// Keeps what an event made known.
pub(crate) fn keep(
    program: &mut Option<Program>,
    starts: bool,
    mut told: Vec<Note>,
    notes: &mut Vec<Note>,
) {
    if let Some(program) = program {
        program.take(starts, &told);
    }
    notes.append(&mut told);
}

/// Returns how all that is open ends with a program that ended so, with this standard error.
pub(crate) fn early_end(end: ProgramEnd, stderr: &str) -> EarlyEnd {
    EarlyEnd {
        end: Some(end),
        overflowed: threads_of(" has overflowed", stderr),
        panicked: threads_of(" panicked", stderr),
    }
}

/// Returns true if something ended with status 0.
pub(crate) fn is_zero(end: ProgramEnd) -> bool {
    matches!(end, ProgramEnd::Status(0))
}

/// Returns true if Ctrl-C or SIGTERM may have ended a program.
pub(crate) fn may_be_cancelled(end: ProgramEnd) -> bool {
    match end {
        ProgramEnd::Signal(number) => number == SIGINT || number == SIGTERM,
        ProgramEnd::Status(code) => code == AFTER_SIGINT || code == AFTER_SIGTERM,
    }
}

/// Returns how the command ended, by its end and the error that it reported.
pub(crate) fn command_end(end: Option<ProgramEnd>, error: Option<&str>) -> CommandEnd {
    match end {
        None => CommandEnd::NotStarted {
            error: String::from(error.unwrap_or("")),
        },
        Some(ProgramEnd::Signal(number)) => CommandEnd::Signal {
            number: u32::try_from(number).unwrap_or(u32::MAX),
        },
        Some(ProgramEnd::Status(code)) => {
            let code = u32::try_from(code).unwrap_or(u32::MAX);
            match error {
                Some(words) if code != 0 => CommandEnd::Error {
                    code,
                    words: String::from(words),
                },
                _ => CommandEnd::Status { code },
            }
        }
    }
}

/// Returns true if a suite or a test starts.
pub(crate) fn is_start(event: Event<'_>) -> bool {
    matches!(
        event,
        Event::SuiteStarted { .. } | Event::TestStarted { .. }
    )
}

/// Returns true if an event counts where lines of programs count: it is one of a harness, or damage.
pub(crate) fn is_counted(event: Event<'_>) -> bool {
    !matches!(
        event,
        Event::Heading { .. } | Event::CargoFailed { .. } | Event::Print { .. }
    )
}

/// Returns true if a note is of a failed test, or is a contradiction.
fn has_cause(notes: &[Note]) -> bool {
    notes.iter().any(is_failure)
}

/// Returns true if a note is of a crashed test, or of a suite that ended early.
fn has_break(notes: &[Note]) -> bool {
    notes.iter().any(is_break)
}

/// Returns true if a note is of a failed test, or is a contradiction.
fn is_failure(note: &Note) -> bool {
    match note {
        Note::Test(test) => matches!(test.outcome, TestOutcome::Failed(_)),
        Note::Contradiction(_) => true,
        Note::Flaky(_) | Note::NotRun(_) | Note::Suite(_) => false,
    }
}

/// Returns true if a note is of a crashed test, or of a suite that ended early.
fn is_break(note: &Note) -> bool {
    match note {
        Note::Test(test) => match &test.outcome {
            TestOutcome::Failed(failure) => matches!(failure.kind, FailureKind::Crashed(_)),
            TestOutcome::Passed { .. } | TestOutcome::Skipped { .. } | TestOutcome::Stopped => {
                false
            }
        },
        Note::Contradiction(contradiction) => {
            matches!(contradiction, Contradiction::EndedEarly { .. })
        }
        Note::Flaky(_) | Note::NotRun(_) | Note::Suite(_) => false,
    }
}
