// Made by tools/erase from crates/test_report_run/src/run/programs.rt. Do not edit.
//! The end of a program whose tests the lines of a run are of.

use crate::notes::note::{Contradiction, Note, ProgramFault};
use crate::run::contradictions::push_contradiction;
use crate::run::early::{EarlyEnd, Ending};
use crate::run::error::RunError;
use crate::run::run::TestRun;
use crate::run::running::Running;
use crate::run::suite::Suite;
use deodarsieve::CancelReason;

impl TestRun {
    /// Ends all open suites early, and the tests outside of a suite, as at the end of the program whose tests run. `end` is
    /// what is known about it. Returns the notes of that: the running tests crashed, or were stopped if the run is
    /// cancelled or `end` names others.
    ///
    /// Fails if a number of the run does not fit its counter. After an error the run must not be used.
    pub fn on_all_ended_early(&mut self, end: EarlyEnd) -> Result<Vec<Note>, RunError> {
        let mut notes = Vec::new();
        let how = ending(&self.running, end);
        self.end_suites(&how, &mut notes)?;
        self.learn(&notes)?;
        Ok(notes)
    }

    /// Notes what is wrong with the lines of programs. Returns the note of that, which says that the run was cancelled if
    /// it was.
    ///
    /// Fails if a number of the run does not fit its counter. After an error the run must not be used.
    pub fn on_program_fault(&mut self, fault: ProgramFault) -> Result<Vec<Note>, RunError> {
        let mut notes = Vec::new();
        self.push_end_contradiction(Contradiction::Program(fault), &mut notes)?;
        Ok(notes)
    }

    /// Adds a contradiction about the end of something, or that the run was cancelled, and counts it. Fails if memory
    /// runs out, or a sum does not fit.
    pub(crate) fn push_end_contradiction(
        &mut self,
        contradiction: Contradiction,
        notes: &mut Vec<Note>,
    ) -> Result<(), RunError> {
        let contradiction = unless_cancelled(self.cancel, contradiction);
        self.learn_contradiction(&contradiction)?;
        push_contradiction(contradiction, notes);
        Ok(())
    }

    /// Ends the open suites early, and then the tests outside of a suite. Fails if memory runs out, or a number of a
    /// suite does not fit.
    pub(crate) fn end_suites(
        &mut self,
        how: &Ending,
        notes: &mut Vec<Note>,
    ) -> Result<(), RunError> {
        for suite in self.suites.take_all() {
            self.end_early(how, *suite, notes)?;
        }
        let outside = std::mem::replace(&mut self.outside, Suite::outside());
        self.end_early(how, outside, notes)
    }
}

/// Returns which of the running tests crash if all that is open ends so.
fn ending(running: &Running, early: EarlyEnd) -> Ending {
    let EarlyEnd {
        end,
        overflowed,
        panicked,
    } = early;
    let crashed = if running.has_one_of(&overflowed) {
        Some(overflowed)
    } else if running.has_one_of(&panicked) {
        Some(panicked)
    } else {
        None
    };
    Ending { end, crashed }
}

/// Returns a contradiction about the end of something, or that the run was cancelled. `cancel` is the reason, if it was.
fn unless_cancelled(cancel: Option<CancelReason>, contradiction: Contradiction) -> Contradiction {
    match cancel {
        Some(reason) => Contradiction::Cancelled(reason),
        None => contradiction,
    }
}
