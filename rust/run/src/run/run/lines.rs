// Made by tools/erase from crates/test_report_run/src/run/lines.rt. Do not edit.
//! Headings, failures of cargo, prints, and damaged lines.

use crate::events::event::CargoFailure;
use crate::notes::note::{CargoReport, Contradiction, Note};
use crate::run::contradictions::push_contradiction;
use crate::run::cuts::shortened;
use crate::run::error::{RunError, one_more};
use crate::run::run::TestRun;
use crate::run::suite_names::SuiteNames;
use std::rc::Rc;

/// The front of the line in which cargo says that tests failed.
const TESTS_FAILED: &[u8] = b"error: test failed";

impl TestRun {
    /// Takes a heading of cargo. Fails if memory runs out, or the number of headings does not fit.
    pub(crate) fn on_heading(&mut self, name: &str, path: Option<&str>) -> Result<(), RunError> {
        self.others.on_heading()?;
        let own = self.headings.take_heading(name, path);
        self.heading = Some(shown_name(&self.names, path, own));
        Ok(())
    }

    /// Takes a print. Fails if memory runs out, or the number of prints does not fit.
    pub(crate) fn on_print(&mut self, line: &str, plain: &str) -> Result<(), RunError> {
        self.others.on_print(line, plain)?;
        self.recent.take_line(plain);
        Ok(())
    }

    /// Takes a line in which cargo or nextest reports a failure. If it is a contradiction, it counts from now on. Fails
    /// if memory runs out, or the number of failed tests and contradictions does not fit.
    pub(crate) fn on_cargo_failed(
        &mut self,
        failure: CargoFailure,
        plain: &str,
    ) -> Result<(), RunError> {
        let contradicts = self.cargo_contradicts(failure);
        self.others.on_failure();
        if contradicts {
            let lacks_events = lacks_events(self.has_event, self.lacked_events, plain);
            self.causes = one_more(self.causes)?;
            self.reported = Some(CargoReport {
                line: String::from(plain),
                prints: self.recent.text(0),
                cause: None,
                lacks_events,
            });
            self.lacked_events = self.lacked_events || lacks_events;
        }
        Ok(())
    }

    /// Returns true if no suite is open, and no failed test or earlier contradiction explains this failure of cargo
    /// or nextest. A failed build is never explained.
    fn cargo_contradicts(&self, failure: CargoFailure) -> bool {
        let explained = match failure {
            CargoFailure::Build => false,
            CargoFailure::Tests => self.causes > self.causes_at_cargo,
            CargoFailure::Run => self.causes > self.causes_at_file,
        };
        self.suites.list.is_empty() && !explained
    }

    /// Makes the last failure of cargo known, if it is not yet, with the cause that was read after it. In the output of
    /// a command it waits for the end of the command. `heard` is true if an event of a harness follows.
    pub(crate) fn settle(&mut self, heard: bool, notes: &mut Vec<Note>) {
        let Some(mut report) = self.reported.take() else {
            return;
        };
        report.cause = self.others.last_cause();
        report.lacks_events = report.lacks_events && !heard;
        if self.of_command {
            self.held.push(report);
        } else {
            push_contradiction(Contradiction::Cargo(report), notes);
        }
    }
}

/// Returns true if a line says that tests failed, no line of the file was an event of a harness, and no other failure of
/// cargo in the file lacked events.
fn lacks_events(has_event: bool, lacked_events: bool, line: &str) -> bool {
    !has_event && (!lacked_events && line.as_bytes().starts_with(TESTS_FAILED))
}

/// Returns the name that a heading gives the suites after it: the known name of the binary with this path, or else `own`.
fn shown_name(names: &SuiteNames, path: Option<&str>, own: String) -> Rc<String> {
    let name = match known_name(names, path) {
        Some(known) => String::from(known),
        None => own,
    };
    Rc::new(name)
}

/// Returns the name that is known of the suites of the binary with this path.
fn known_name<'a>(names: &'a SuiteNames, path: Option<&str>) -> Option<&'a str> {
    names.get(path?)
}

/// Adds the contradiction of a damaged line that says a failure.
pub(crate) fn push_damaged(text: &str, notes: &mut Vec<Note>) {
    let text = String::from(shortened(text));
    push_contradiction(Contradiction::Damaged { text }, notes);
}
