// Made by tools/erase from crates/test_report_run/src/run/events.rt. Do not edit.
//! The events of a run, one after the other.

use crate::events::event::Event;
use crate::notes::note::Note;
use crate::run::error::RunError;
use crate::run::longest_end::LongestEnd;
use crate::run::run::TestRun;
use crate::run::run::lines::push_damaged;

impl TestRun {
    /// Takes an event if there is one, and appends its notes.
    pub(crate) fn take(
        &mut self,
        event: Option<Event<'_>>,
        notes: &mut Vec<Note>,
    ) -> Result<(), RunError> {
        match event {
            Some(event) => {
                let mut told = self.on_event(event)?;
                notes.append(&mut told);
                Ok(())
            }
            None => Ok(()),
        }
    }

    /// Makes the last failure of cargo known, if no line after this event can explain it.
    pub(crate) fn settle_at(&mut self, event: Event<'_>, notes: &mut Vec<Note>) {
        if is_after_report(event) {
            self.settle(is_event(event), notes);
        }
    }

    /// Takes an event, except that its notes are not added to the sums. Fails if memory runs out, or a number of the
    /// run does not fit.
    pub(crate) fn tell(&mut self, event: Event<'_>, notes: &mut Vec<Note>) -> Result<(), RunError> {
        match event {
            Event::SuiteStarted { key, test_count } => {
                self.on_suite_started(key, test_count, notes)
            }
            Event::SuiteEnded(end) => self.on_suite_ended(end, notes),
            Event::TestStarted { name } => self.on_test_started(name),
            Event::TestEnded {
                name,
                result: end,
                details,
            } => self.on_test_ended(name, end, details, notes),
            Event::TestSlow { name } => {
                self.on_test_slow(name);
                Ok(())
            }
            Event::Other => Ok(()),
            Event::Heading { suite, path } => self.on_heading(suite, path),
            Event::CargoFailed { failure, plain, .. } => self.on_cargo_failed(failure, plain),
            Event::Print { line, plain } => self.on_print(line, plain),
            Event::Damaged { text } => {
                push_damaged(text, notes);
                Ok(())
            }
        }
    }

    /// Stores that a line is an event of a harness, and the number of causes if cargo reports a failure outside
    /// of a suite.
    pub(crate) fn mark(&mut self, event: Event<'_>) {
        forget_prints(event, &mut self.recent);
        if is_event(event) {
            self.has_event = true;
        }
        if matches!(event, Event::CargoFailed { .. }) && self.suites.list.is_empty() {
            self.causes_at_cargo = self.causes;
        }
    }
}

/// Forgets prints before an event after which they cannot say why cargo fails.
fn forget_prints(event: Event<'_>, prints: &mut LongestEnd) {
    if is_after_report(event) {
        *prints = LongestEnd::new();
    }
}

/// Returns true if a line is an event of a harness.
fn is_event(event: Event<'_>) -> bool {
    match event {
        Event::SuiteStarted { .. }
        | Event::SuiteEnded(_)
        | Event::TestStarted { .. }
        | Event::TestEnded { .. }
        | Event::TestSlow { .. }
        | Event::Other => true,
        Event::CargoFailed { .. }
        | Event::Heading { .. }
        | Event::Print { .. }
        | Event::Damaged { .. } => false,
    }
}

/// Returns true if an event, a heading or a failure comes after all that may say why cargo failed before it.
fn is_after_report(event: Event<'_>) -> bool {
    !matches!(event, Event::Print { .. } | Event::Damaged { .. })
}
