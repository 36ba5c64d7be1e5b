// Made by tools/erase from crates/test_report_run/src/run/command.rt. Do not edit.
//! The command whose output the lines of a run are.

use crate::notes::note::{CargoReport, CommandEnd, Contradiction, Note};
use crate::run::contradictions::push_contradiction;
use crate::run::error::RunError;
use crate::run::run::TestRun;
use crate::run::suite_names::SuiteNames;
use deodarsieve::CancelReason;

impl TestRun {
    /// Notes that the next lines, up to the end of the file, are the output of a command. Failures that cargo reports in
    /// them wait for the end of the command: if it ended with status 0, they were prints. If `names` has a name for the
    /// path in a heading, the suites after the heading have this name.
    pub fn on_command_started(&mut self, names: SuiteNames) {
        self.of_command = true;
        self.names = names;
    }

    /// Notes that the run is cancelled for this reason, also if it was for another one. The notes of the tests that
    /// become known up to the end of the file have it. Nothing else of the run changes.
    pub fn on_cancelled(&mut self, reason: CancelReason) {
        self.cancel = Some(reason);
    }

    /// Notes how the command ended whose output was read, if the lines are the output of one.
    pub fn on_command_ended(&mut self, command: Option<CommandEnd>) {
        if let Some(end) = command {
            self.command = Some(end);
        }
    }

    /// Makes the failures of cargo known that wait for the end of the command. If it ended with status 0, they were
    /// prints.
    pub(crate) fn tell_held(&mut self, notes: &mut Vec<Note>) {
        let held = std::mem::replace(&mut self.held, Vec::new());
        if ended_well(&self.command) {
            self.causes = self.causes.saturating_sub(held.len());
        } else {
            push_reports(held, self.has_event, notes);
        }
    }

    /// Adds a contradiction if the command failed and nothing says why, and counts it. Fails if memory runs out, or
    /// a sum does not fit.
    pub(crate) fn end_command(&mut self, notes: &mut Vec<Note>) -> Result<(), RunError> {
        let Some(end) = self.command.take() else {
            return Ok(());
        };
        if command_fails(self.causes, &end) {
            self.push_end_contradiction(Contradiction::Command(end), notes)
        } else {
            Ok(())
        }
    }
}

/// Returns true if a command ended with status 0.
fn ended_well(command: &Option<CommandEnd>) -> bool {
    matches!(command, Some(CommandEnd::Status { code: 0 }))
}

/// Returns true if the end of a command says more than that no line is an event: it ended with status 0, or could not be
/// started.
pub(crate) fn says_more(command: &Option<CommandEnd>) -> bool {
    matches!(
        command,
        Some(CommandEnd::Status { code: 0 } | CommandEnd::NotStarted { .. })
    )
}

/// Appends failures of cargo that are contradictions. `has_event` is true if a line of the file is an event.
fn push_reports(reports: Vec<CargoReport>, has_event: bool, notes: &mut Vec<Note>) {
    for mut report in reports {
        report.lacks_events = report.lacks_events && !has_event;
        push_contradiction(Contradiction::Cargo(report), notes);
    }
}

/// Returns true if a command could not be started, ended by a signal, or ended with a status above 0 although `causes`,
/// the number of failed tests and contradictions, is 0.
fn command_fails(causes: usize, end: &CommandEnd) -> bool {
    match end {
        CommandEnd::NotStarted { .. } | CommandEnd::Signal { .. } => true,
        CommandEnd::Status { code } => *code != 0 && causes == 0,
        CommandEnd::Error { .. } => causes == 0,
    }
}
