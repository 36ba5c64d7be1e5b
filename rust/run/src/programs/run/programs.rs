// Made by tools/erase from crates/test_report_programs/src/run/programs.rt. Do not edit.
//! The lines of programs, and of the command that runs them.

use crate::events::event::Event;
use crate::events::program::{ProgramEnd, ProgramLine, ProgramStart};
use crate::notes::note::{Note, ProgramFault};
use crate::programs::program::{
    Over, Program, command_end, early_end, fault_of, is_zero, keep, may_be_cancelled,
};
use crate::programs::run::ProgramRun;
use crate::run::early::EarlyEnd;
use crate::run::error::RunError;
use deodarsieve::CancelReason;

impl ProgramRun {
    /// Takes a line of a program or of the command.
    pub(super) fn on_program_line(
        &mut self,
        line: &ProgramLine,
        notes: &mut Vec<Note>,
    ) -> Result<(), RunError> {
        match line {
            ProgramLine::ProgramStarted(start) => self.start_program(start, notes),
            ProgramLine::ProgramEnded { end: None, .. } => self.lose_program(notes),
            ProgramLine::ProgramEnded {
                end: Some(end),
                stderr,
            } => self.end_program(*end, stderr.as_str(), notes),
            ProgramLine::CommandStarted => self.settle(notes),
            ProgramLine::CommandCancelled(reason) => {
                self.cancel(*reason);
                self.settle(notes)
            }
            ProgramLine::CommandEnded { end, error, reason } => {
                self.end_command(*end, error.as_deref(), *reason, notes)
            }
        }
    }

    /// Takes how the command ended, the error that it reported, and why the run was cancelled. Of a later end than the
    /// first one only a failure counts.
    fn end_command(
        &mut self,
        end: Option<ProgramEnd>,
        error: Option<&str>,
        reason: Option<CancelReason>,
        notes: &mut Vec<Note>,
    ) -> Result<(), RunError> {
        self.cancel(reason);
        self.lose_program(notes)?;
        if self.ends_again(end) {
            return Ok(());
        }
        let command = command_end(end, error);
        self.run.on_command_ended(Some(command));
        self.is_done = true;
        Ok(())
    }

    /// Returns true if the command ended before, and `end` is an end with status 0.
    fn ends_again(&self, end: Option<ProgramEnd>) -> bool {
        self.is_done && end.is_some_and(is_zero)
    }

    /// Cancels the run, if there is a reason.
    fn cancel(&mut self, reason: Option<CancelReason>) {
        if let Some(reason) = reason {
            self.run.on_cancelled(reason);
        }
    }

    /// Starts a program, after the end of the one that runs.
    fn start_program(
        &mut self,
        start: &ProgramStart,
        notes: &mut Vec<Note>,
    ) -> Result<(), RunError> {
        self.lose_program(notes)?;
        let suite = start.name.as_str();
        let path = start.path.as_deref();
        self.tell(Event::Heading { suite, path }, notes)?;
        self.program = Some(Program::start(start));
        Ok(())
    }

    /// Takes how a program ended, and its standard error, after an end that was put off.
    fn end_program(
        &mut self,
        end: ProgramEnd,
        stderr: &str,
        notes: &mut Vec<Note>,
    ) -> Result<(), RunError> {
        self.settle(notes)?;
        if self.program.is_none() {
            if is_zero(end) {
                return Ok(());
            }
            return self.tell_fault(ProgramFault::NotStarted { end }, notes);
        }
        if may_be_cancelled(end) {
            let stderr = String::from(stderr);
            self.over = Some(Over { end, stderr });
            return Ok(());
        }
        self.program_over(end, stderr, notes)
    }

    /// Takes the end of a program that was put off, if there is one.
    pub(super) fn settle(&mut self, notes: &mut Vec<Note>) -> Result<(), RunError> {
        match self.over.take() {
            Some(over) => self.program_over(over.end, over.stderr.as_str(), notes),
            None => Ok(()),
        }
    }

    /// Ends the program that runs: its standard error is printed, and all that is open ends early.
    fn program_over(
        &mut self,
        end: ProgramEnd,
        stderr: &str,
        notes: &mut Vec<Note>,
    ) -> Result<(), RunError> {
        self.print_lines(stderr, notes)?;
        self.end_early(early_end(end, stderr), notes)
    }

    /// Prints each line of a text.
    fn print_lines(&mut self, text: &str, notes: &mut Vec<Note>) -> Result<(), RunError> {
        for line in text.lines() {
            self.tell(Event::Print { line, plain: line }, notes)?;
        }
        Ok(())
    }

    /// Takes the end of a program that was put off, and ends the program that runs, if one does. No line says how it
    /// ended.
    pub(super) fn lose_program(&mut self, notes: &mut Vec<Note>) -> Result<(), RunError> {
        self.settle(notes)?;
        if self.program.is_none() {
            return Ok(());
        }
        self.end_early(EarlyEnd::unknown(), notes)
    }

    /// Ends all that is open, says what is wrong with the end of the program that ran, and forgets the program.
    fn end_early(&mut self, end: EarlyEnd, notes: &mut Vec<Note>) -> Result<(), RunError> {
        let how = end.end;
        let told = self.run.on_all_ended_early(end)?;
        keep(&mut self.program, false, told, notes);
        let fault = fault_of(self.program.as_ref(), how);
        self.program = None;
        match fault {
            Some(fault) => self.tell_fault(fault, notes),
            None => Ok(()),
        }
    }

    /// Says what is wrong with the lines of programs.
    pub(super) fn tell_fault(
        &mut self,
        fault: ProgramFault,
        notes: &mut Vec<Note>,
    ) -> Result<(), RunError> {
        let told = self.run.on_program_fault(fault)?;
        keep(&mut self.program, false, told, notes);
        Ok(())
    }
}
