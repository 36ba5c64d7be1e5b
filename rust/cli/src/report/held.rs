//! Failed tests without a captured output, which become known when their program ends: it says then what they wrote.

use crate::report::thread_panic::uncaptured;
use deodarsieve_run::{FailureKind, Line, Note, ProgramLine};
use std::mem;

/// The notes that wait for the end of the program that runs: of failed tests without an output, and of the suites after
/// them.
#[derive(Default)]
pub(crate) struct HeldNotes {
    notes: Vec<Note>,
}

impl HeldNotes {
    /// Keeps those of the notes of a line that wait, and returns the others.
    pub(crate) fn keep(&mut self, notes: Vec<Note>) -> Vec<Note> {
        let mut others = Vec::new();
        for note in notes {
            if self.waits(&note) {
                self.notes.push(note);
            } else {
                others.push(note);
            }
        }
        others
    }

    /// Returns the notes that wait, if a line says that their program is over, and what the program wrote to standard error,
    /// as far as the line has it.
    pub(crate) fn released_by<'a>(&mut self, line: &'a Line) -> (Vec<Note>, &'a str) {
        match line.program() {
            Some(ProgramLine::ProgramEnded { stderr, .. }) => (self.release(), stderr),
            Some(ProgramLine::ProgramStarted(_) | ProgramLine::CommandEnded { .. }) => {
                (self.release(), "")
            }
            Some(ProgramLine::CommandStarted | ProgramLine::CommandCancelled(_)) | None => {
                (Vec::new(), "")
            }
        }
    }

    /// Returns all notes that wait.
    pub(crate) fn release(&mut self) -> Vec<Note> {
        mem::take(&mut self.notes)
    }

    /// Returns true if a note waits. A suite does after one of its tests.
    fn waits(&self, note: &Note) -> bool {
        match (note, uncaptured(note)) {
            (Note::Suite(_), _) => !self.notes.is_empty(),
            (_, Some((_, FailureKind::Failed | FailureKind::TimedOut))) => true,
            (_, Some(_) | None) => false,
        }
    }
}
