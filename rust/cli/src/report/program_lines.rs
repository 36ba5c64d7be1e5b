//! What a report needs of lines of programs, and of the build before them, beside the notes of the run.

use crate::report::build::{CompilerMessages, FailedBuild};
use deodarsieve::CancelReason;
use deodarsieve_run::{CommandEnd, Contradiction, Event, Line, Note, ProgramEnd, ProgramLine};
use std::collections::BTreeSet;
use std::mem;

/// What was read in lines of programs so far.
#[derive(Default)]
pub(crate) struct ProgramLines {
    /// Whether these lines count in this file, once it has a line: they do if its first line is one of them.
    count: Option<bool>,

    /// Why the run is cancelled, if it is.
    cancelled: Option<CancelReason>,

    /// True if a program, a suite or a test of this file started.
    has_started: bool,

    /// The name of the program that runs.
    program: Option<String>,

    /// The exit status of the command, if a line of this file has it.
    status: Option<i32>,

    /// What the compiler said in the build, before anything started.
    messages: CompilerMessages,

    /// True if this program has its own harness, and no suite or test of it started.
    is_silent: bool,

    /// The programs that were returned.
    returned: BTreeSet<String>,
}

impl ProgramLines {
    /// Returns true if lines of programs count in this file, as far as it was read.
    pub(crate) fn count(&self) -> bool {
        self.count == Some(true)
    }

    /// Returns true if a line is the first one of another run in the same file: where such lines count, a command starts.
    pub(crate) fn ends_before(&self, line: &Line) -> bool {
        self.count() && matches!(line.program(), Some(ProgramLine::CommandStarted))
    }

    /// Takes a line of the run. Returns the name of the program that ended, if it has its own harness, no suite or test of
    /// it started, and it was not returned before.
    pub(crate) fn on_line(&mut self, line: &Line) -> Option<String> {
        let said = line.program();
        if !*self.count.get_or_insert(said.is_some()) {
            return None;
        }
        match said {
            None => {
                if let Event::SuiteStarted { .. } | Event::TestStarted { .. } = line.event() {
                    self.is_silent = false;
                    self.has_started = true;
                }
                None
            }
            Some(ProgramLine::ProgramStarted(start)) => {
                let ended = self.end_program();
                self.has_started = true;
                self.program = Some(start.name.clone());
                self.is_silent = start.own_harness;
                ended
            }
            Some(ProgramLine::ProgramEnded { .. }) => self.end_program(),
            Some(ProgramLine::CommandStarted) => None,
            Some(ProgramLine::CommandCancelled(reason)) => {
                self.cancelled = reason.or(self.cancelled);
                None
            }
            Some(ProgramLine::CommandEnded { end, reason, .. }) => {
                self.cancelled = reason.or(self.cancelled);
                // Of a later end only a failure counts.
                let status = end.and_then(status_of).filter(|status| *status != 0);
                self.status = status.or(self.status);
                self.end_program()
            }
        }
    }

    /// Takes the same line, and returns true if it is one of the build: cargo wrote it before anything started.
    pub(crate) fn on_message(&mut self, line: &[u8]) -> bool {
        let may_be_of_build = self.count() && !self.has_started;
        may_be_of_build && self.messages.on_line(line)
    }

    /// Takes the end of a file, which made these notes known. Sets the exit status of the command in them. Returns the
    /// build of the tests, if it failed.
    pub(crate) fn end_file(&mut self, notes: &mut [Note]) -> Option<FailedBuild> {
        let count = self.count.take() == Some(true);
        if let Some(status) = self.status.take() {
            notes.iter_mut().for_each(|note| set_status(note, status));
        }
        let has_started = mem::take(&mut self.has_started);
        let messages = mem::take(&mut self.messages);
        let end = notes.iter().find_map(end_of_command);
        let is_failed_build = count && !has_started && (messages.have_errors() || end.is_some());
        is_failed_build.then(|| FailedBuild {
            messages,
            end: end.cloned(),
        })
    }

    /// Notes that the run is cancelled.
    pub(crate) fn cancel(&mut self, reason: CancelReason) {
        self.cancelled = Some(reason);
    }

    /// Returns the name of the program that runs, if one does.
    pub(crate) fn program(&self) -> Option<&str> {
        self.program.as_deref()
    }

    /// Returns why the run is cancelled, if it is.
    pub(crate) fn cancelled(&self) -> Option<CancelReason> {
        self.cancelled
    }

    /// Ends the program that runs, and returns its name if it has no report and was not returned before.
    pub(crate) fn end_program(&mut self) -> Option<String> {
        let name = self.program.take().filter(|_| self.is_silent)?;
        self.returned.insert(name.clone()).then_some(name)
    }
}

/// Returns an exit status as the system has it, or `None` for another end.
fn status_of(end: ProgramEnd) -> Option<i32> {
    match end {
        ProgramEnd::Status(status) => i32::try_from(status).ok(),
        ProgramEnd::Signal(_) => None,
    }
}

/// Sets the exit status of the command in a note that it failed. The run has only the greatest number for each negative
/// status that a line says.
fn set_status(note: &mut Note, status: i32) {
    if let Note::Contradiction(Contradiction::Command(CommandEnd::Status { code })) = note {
        *code = status.cast_unsigned();
    }
}

/// Returns how a command ended that was started and failed, if a note says so.
fn end_of_command(note: &Note) -> Option<&CommandEnd> {
    match note {
        Note::Contradiction(Contradiction::Command(CommandEnd::NotStarted { .. })) => None,
        Note::Contradiction(Contradiction::Command(end)) => Some(end),
        Note::Test(_)
        | Note::Flaky(_)
        | Note::Contradiction(_)
        | Note::NotRun(_)
        | Note::Suite(_) => None,
    }
}
