// Made by tools/erase from crates/test_report_run/src/others.rt. Do not edit.
//! The lines of a file that are no events of a harness.

use crate::run::cuts::shortened;
use crate::run::error::{RunError, one_more};
use crate::run::prints::Prints;

/// The line before the one in which cargo names the cause of its failure.
const CAUSED_BY: &str = "Caused by:";

/// The place of a print of a file.
#[derive(Clone, Copy, Debug, Default)]
pub(crate) struct PrintPlace {
    /// The number of headings and failures that came before it.
    part: usize,

    /// The number of prints between the last of these and it.
    print: usize,
}

/// The place of an event of a file among its other lines.
#[derive(Clone, Copy, Debug, Default)]
pub(crate) struct EventPlace {
    /// The number of causes that came before it.
    causes: usize,

    /// The number of headings that came before it.
    headings: usize,
}

/// The cause of a failure that cargo reported.
#[derive(Clone, Debug)]
pub(crate) struct Cause {
    /// The number of headings that came before it.
    headings: usize,

    /// Its line, which follows the first `Caused by:` after the failure, or the first 200 bytes of this line.
    line: String,
}

/// How far the search for the cause of the last failure is.
#[derive(Clone, Copy, Debug)]
enum Stage {
    /// There is nothing to search for: no failure came, the cause is known, or a heading came after the failure.
    Over,

    /// After the failure, before the line `Caused by:`.
    Failed,

    /// Right after the line `Caused by:`.
    CausedBy,
}

/// What is kept of the lines of a file that are no events of a harness.
#[derive(Clone, Debug)]
pub(crate) struct Others {
    /// The prints before the first heading or failure of cargo, and between two of them.
    past: Vec<Prints>,

    /// The prints after the last heading or failure.
    prints: Prints,

    headings: usize,

    /// The causes that cargo named of its failures.
    causes: Vec<Cause>,

    /// The plain text of the cause of the last failure, or its first 200 bytes.
    last_cause: Option<String>,
    stage: Stage,
}

impl Others {
    /// Returns what is kept before the first line.
    pub(crate) fn new() -> Others {
        Others {
            past: Vec::new(),
            prints: Prints::new(),
            headings: 0,
            causes: Vec::new(),
            last_cause: None,
            stage: Stage::Over,
        }
    }

    /// Takes a print. Fails if memory runs out, or the number of prints does not fit.
    pub(crate) fn on_print(&mut self, line: &str, plain: &str) -> Result<(), RunError> {
        self.prints.take_print(line)?;
        if matches!(self.stage, Stage::CausedBy) {
            self.keep_cause(line, plain);
        }
        self.stage = stage_after(self.stage, plain);
        Ok(())
    }

    /// Keeps the cause of the last failure.
    fn keep_cause(&mut self, line: &str, plain: &str) {
        let line = String::from(shortened(line));
        self.causes.push(Cause {
            headings: self.headings,
            line,
        });
        self.last_cause = Some(String::from(shortened(plain)));
    }

    /// Takes a heading. Fails if memory runs out, or the number of headings does not fit.
    pub(crate) fn on_heading(&mut self) -> Result<(), RunError> {
        self.end_part();
        self.headings = one_more(self.headings)?;
        self.stage = Stage::Over;
        Ok(())
    }

    /// Takes a failure of cargo.
    pub(crate) fn on_failure(&mut self) {
        self.end_part();
        self.last_cause = None;
        self.stage = Stage::Failed;
    }

    /// Ends the prints after the last heading or failure.
    fn end_part(&mut self) {
        let prints = std::mem::replace(&mut self.prints, Prints::new());
        self.past.push(prints);
    }

    /// Returns the place of the next print.
    pub(crate) fn print_place(&self) -> PrintPlace {
        PrintPlace {
            part: self.past.len(),
            print: self.prints.count(),
        }
    }

    /// Returns the place of an event.
    pub(crate) fn event_place(&self) -> EventPlace {
        EventPlace {
            causes: self.causes.len(),
            headings: self.headings,
        }
    }

    /// Returns the prints of a part: those between two headings or failures, or after the last one.
    fn part_at(&self, part: usize) -> &Prints {
        self.past.get(part).unwrap_or(&self.prints)
    }

    /// Returns the text of the prints from a place on, up to the first heading or failure after it: the longest end
    /// that fits.
    pub(crate) fn prints_from(&self, at: PrintPlace) -> String {
        self.part_at(at.part).text_from(at.print)
    }

    /// Returns the last three of these prints that are not blank.
    pub(crate) fn last_prints_from(&self, at: PrintPlace) -> Vec<String> {
        self.part_at(at.part).last_from(at.print)
    }

    /// Returns the first cause after an event, unless a heading came between them.
    pub(crate) fn cause_after(&self, at: EventPlace) -> Option<String> {
        let Some(cause) = self.causes.get(at.causes) else {
            return None;
        };
        if cause.headings == at.headings {
            Some(cause.line.clone())
        } else {
            None
        }
    }

    /// Returns the plain text of the cause of the last failure.
    pub(crate) fn last_cause(&self) -> Option<String> {
        self.last_cause.clone()
    }
}

/// Returns how far the search for a cause is after a print.
fn stage_after(stage: Stage, plain: &str) -> Stage {
    match stage {
        Stage::Failed if says_caused_by(plain) => Stage::CausedBy,
        Stage::Failed => Stage::Failed,
        Stage::Over | Stage::CausedBy => Stage::Over,
    }
}

/// Returns true if a line is `Caused by:`, perhaps after spaces.
fn says_caused_by(plain: &str) -> bool {
    plain.trim_start_matches(' ') == CAUSED_BY
}
