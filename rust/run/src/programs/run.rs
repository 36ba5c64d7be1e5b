// Made by tools/erase from crates/test_report_programs/src/run.rt. Do not edit.
//! A test run whose lines tell of each test program.

mod programs;

use crate::events::event::Event;
use crate::events::line::Line;
use crate::notes::note::{CommandEnd, Note, ProgramFault};
use crate::programs::program::{Over, Program, is_counted, is_start, keep};
use crate::run::error::RunError;
use crate::run::run::{Finished, TestRun};
use crate::run::suite_names::SuiteNames;
use deodarsieve::CancelReason;

/// A test run whose lines may tell of each test program, and of the command that runs them.
///
/// Such lines count in a file whose first line is one of them. There, a program's suites have its name and end early with
/// it, headings and failures of cargo are prints, and each line that is no event says nothing.
#[derive(Clone)]
pub struct ProgramRun {
    /// Whether lines of programs count in this file, once it has a line.
    counts: Option<bool>,

    /// The program that runs.
    program: Option<Program>,

    /// How this program ended, if Ctrl-C or SIGTERM may have ended it and the next line is not read.
    over: Option<Over>,

    /// True if a line said how the command ended.
    is_done: bool,

    /// The run.
    run: TestRun,
}

impl ProgramRun {
    /// Returns a run of programs over a new run.
    pub fn new(run: TestRun) -> ProgramRun {
        ProgramRun {
            counts: None,
            program: None,
            over: None,
            is_done: false,
            run,
        }
    }

    /// Returns the run, for its numbers.
    pub fn run(&self) -> &TestRun {
        &self.run
    }

    /// Takes a line, and returns what it makes known.
    ///
    /// Fails if a number of the run does not fit its counter. After an error the run must not be used.
    pub fn on_line(&mut self, line: &Line) -> Result<Vec<Note>, RunError> {
        let counts = self.counts.unwrap_or(line.program().is_some());
        self.counts = Some(counts);
        let mut notes = Vec::new();
        self.take_line(counts, line, &mut notes)?;
        Ok(notes)
    }

    /// Notes that the command starts whose output the next lines are, and which writes no lines of programs. `names` are
    /// the names of its suites.
    pub fn on_command_started(&mut self, names: SuiteNames) {
        self.run.on_command_started(names);
    }

    /// Notes that the run is cancelled from here on, up to the end of the file.
    pub fn on_cancelled(&mut self, reason: CancelReason) {
        self.run.on_cancelled(reason);
    }

    /// Ends a file of the run that is not the last one, and returns what that makes known.
    ///
    /// Fails if a number of the run does not fit its counter. After an error the run must not be used.
    pub fn end_file(&mut self) -> Result<Vec<Note>, RunError> {
        let mut notes = Vec::new();
        self.close(&mut notes)?;
        notes.append(&mut self.run.end_file()?);
        self.begin_file();
        Ok(notes)
    }

    /// Ends the run. `command` is how the command ended whose output the run is, if there is one and no line says so.
    /// Returns what becomes known, the sums, the outcome and the exit status: 0 if a test passed and nothing is wrong, or,
    /// with `no_tests_pass`, if no test ran and nothing is wrong.
    ///
    /// Fails if a number of the run does not fit its counter. After an error the run must not be used.
    pub fn finish(
        &mut self,
        command: Option<CommandEnd>,
        no_tests_pass: bool,
    ) -> Result<Finished, RunError> {
        let mut notes = Vec::new();
        self.close(&mut notes)?;
        let mut finished = self.run.finish(command, no_tests_pass)?;
        notes.append(&mut finished.notes);
        finished.notes = notes;
        self.begin_file();
        Ok(finished)
    }

    /// Forgets what is kept of the lines of a file, before the next one.
    fn begin_file(&mut self) {
        self.counts = None;
        self.program = None;
        self.over = None;
        self.is_done = false;
    }

    /// Says what is wrong at the end of a file in which lines of programs count.
    fn close(&mut self, notes: &mut Vec<Note>) -> Result<(), RunError> {
        if !self.counts.unwrap_or(false) {
            return Ok(());
        }
        self.lose_program(notes)?;
        if self.is_done {
            return Ok(());
        }
        self.tell_fault(ProgramFault::CutOff, notes)
    }

    /// Takes the events of a line, and what it says of a program or of the command, if lines of programs count.
    fn take_line(
        &mut self,
        counts: bool,
        line: &Line,
        notes: &mut Vec<Note>,
    ) -> Result<(), RunError> {
        if !counts {
            return self.take_events(counts, line, notes);
        }
        match line.program() {
            Some(program) => {
                self.take_events(counts, line, notes)?;
                self.on_program_line(program, notes)
            }
            None => {
                self.settle(notes)?;
                self.take_events(counts, line, notes)
            }
        }
    }

    /// Takes the events of a line that count.
    fn take_events(
        &mut self,
        counts: bool,
        line: &Line,
        notes: &mut Vec<Note>,
    ) -> Result<(), RunError> {
        self.take(counts, line.before(), notes)?;
        self.take(counts, Some(line.event()), notes)?;
        self.take(counts, line.damage(), notes)
    }

    /// Takes an event, if there is one, and it counts where lines of programs count or these do not.
    fn take(
        &mut self,
        counts: bool,
        event: Option<Event<'_>>,
        notes: &mut Vec<Note>,
    ) -> Result<(), RunError> {
        match event {
            Some(event) if !counts || is_counted(event) => self.tell(event, notes),
            _ => Ok(()),
        }
    }

    /// Tells an event to the run.
    fn tell(&mut self, event: Event<'_>, notes: &mut Vec<Note>) -> Result<(), RunError> {
        let told = self.run.on_event(event)?;
        keep(&mut self.program, is_start(event), told, notes);
        Ok(())
    }
}
