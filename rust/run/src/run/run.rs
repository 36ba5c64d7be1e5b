// Made by tools/erase from crates/test_report_run/src/run.rt. Do not edit.
//! A test run that is followed line by line.

mod command;
mod events;
mod lines;
mod programs;
pub mod progress;
mod suites;
mod test_lines;

use crate::events::event::Event;
use crate::events::line::Line;
use crate::notes::note::{CargoReport, CommandEnd, Contradiction, Note, RunEnd, TestOutcome};
use crate::run::contradictions::push_contradiction;
use crate::run::early::Ending;
use crate::run::error::{RunError, one_more};
use crate::run::headings::Headings;
use crate::run::longest_end::LongestEnd;
use crate::run::open_suites::OpenSuites;
use crate::run::others::Others;
use crate::run::run::command::says_more;
use crate::run::running::Running;
use crate::run::status::exit_status;
use crate::run::suite::Suite;
use crate::run::suite_names::SuiteNames;
use crate::run::totals::Totals;
use deodarsieve::CancelReason;
use std::collections::VecDeque;
use std::rc::Rc;

/// A test run, up to the line that was passed last. Pass each line to `on_line`, and end the run by `finish`.
#[derive(Clone)]
pub struct TestRun {
    /// The tests of the file that start outside of a suite.
    outside: Suite,

    /// The open suites.
    suites: OpenSuites,

    /// The headings of the file, and the name that the last one gives the suites after it.
    headings: Headings,
    heading: Option<Rc<String>>,

    /// True if a line of the file was an event of a harness.
    has_event: bool,

    /// True if a failure of cargo in the file lacks events.
    lacked_events: bool,

    /// The lines of the file that are no events of a harness.
    others: Others,

    /// The plain text of the prints after the last heading, event or failure of cargo.
    recent: LongestEnd,

    /// The last failure of cargo that is a contradiction, until what may say why is read.
    reported: Option<CargoReport>,

    /// The failures of cargo that wait for the end of the command.
    held: Vec<CargoReport>,

    /// True if the lines are the output of a command.
    of_command: bool,

    /// How the command ended.
    command: Option<CommandEnd>,

    /// The names that are known of the suites of the command.
    names: SuiteNames,

    /// Why the run is cancelled up to the end of the file, if it is.
    cancel: Option<CancelReason>,

    running: Running,
    ended: usize,
    totals: Totals,
    contradictions: usize,

    /// How many contradictions say that the run was cancelled.
    cancels: usize,

    /// The number of failed tests and contradictions until now, until the file began, and until the last
    /// failure of cargo outside of a suite. They decide whether a failure of cargo is explained. Failures of cargo
    /// are counted before they become known.
    causes: usize,
    causes_at_file: usize,
    causes_at_cargo: usize,

    /// The least time of a slow test, in microseconds.
    slow: u64,

    /// The names of this file and of those after it. There are none if the run has only one file.
    file_names: VecDeque<String>,
}

/// The end of a run.
#[derive(Clone, Debug)]
pub struct Finished {
    /// The notes that the end of the last file makes known.
    pub notes: Vec<Note>,

    /// The sums and the outcome of the run.
    pub end: RunEnd,

    /// The exit status for this outcome: 0 or 1.
    pub status: u8,
}

impl TestRun {
    /// Returns a run before its first line. A test whose time is at least `slow` microseconds is slow.
    pub fn new(slow: u64) -> TestRun {
        TestRun::with_file_names(slow, VecDeque::new())
    }

    /// Returns a run of several files before its first line. `file_names` are the names of the files, in the order in
    /// which they are read. A test whose time is at least `slow` microseconds is slow.
    pub fn with_file_names(slow: u64, file_names: VecDeque<String>) -> TestRun {
        TestRun {
            outside: Suite::outside(),
            suites: OpenSuites::new(),
            headings: Headings::new(),
            heading: None,
            has_event: false,
            lacked_events: false,
            others: Others::new(),
            recent: LongestEnd::new(),
            reported: None,
            held: Vec::new(),
            of_command: false,
            command: None,
            names: SuiteNames::new(),
            cancel: None,
            running: Running::new(),
            ended: 0,
            totals: Totals::new(),
            contradictions: 0,
            cancels: 0,
            causes: 0,
            causes_at_file: 0,
            causes_at_cargo: 0,
            slow,
            file_names,
        }
    }

    /// Takes the next line: its events, in their order. Returns the notes that each makes known, one after the
    /// other.
    ///
    /// Fails if a number of the run does not fit its counter (`RunError::CounterFull`). After an error the run must not be
    /// used: a part of the line may be counted.
    pub fn on_line(&mut self, line: &Line) -> Result<Vec<Note>, RunError> {
        let mut notes = Vec::new();
        self.take(line.before(), &mut notes)?;
        self.take(Some(line.event()), &mut notes)?;
        self.take(line.damage(), &mut notes)?;
        Ok(notes)
    }

    /// Takes the next event, and returns the notes that it makes known. `on_line` calls it for each event of a
    /// line. The notes of a suite are in this order: its tests without an end, its flaky tests, contradictions,
    /// tests that did not run, and the numbers of the suite.
    ///
    /// Fails if a number of the run does not fit its counter. After an error the run must not be used: a part of the event
    /// may be counted.
    pub fn on_event(&mut self, event: Event<'_>) -> Result<Vec<Note>, RunError> {
        let mut notes = Vec::new();
        self.settle_at(event, &mut notes);
        self.tell(event, &mut notes)?;
        self.learn(&notes)?;
        self.mark(event);
        Ok(notes)
    }

    /// Ends the file, and returns the notes that this makes known. Suites that are still open end early: their running
    /// tests crashed.
    ///
    /// Call it for each file but the last one of a run, and `finish` for the last one.
    ///
    /// Fails if a number of the run does not fit its counter. After an error the run must not be used.
    pub fn end_file(&mut self) -> Result<Vec<Note>, RunError> {
        let mut notes = Vec::new();
        self.settle(false, &mut notes);
        self.tell_held(&mut notes);
        self.end_suites(&Ending::unknown(), &mut notes)?;
        self.push_no_event(&mut notes);
        self.learn(&notes)?;
        self.end_command(&mut notes)?;
        self.begin_file();
        Ok(notes)
    }

    /// Forgets what is kept of the lines of a file, before the next one.
    fn begin_file(&mut self) {
        self.headings = Headings::new();
        self.heading = None;
        self.has_event = false;
        self.lacked_events = false;
        self.others = Others::new();
        self.recent = LongestEnd::new();
        self.of_command = false;
        self.command = None;
        self.names = SuiteNames::new();
        self.cancel = None;
        self.causes_at_file = self.causes;
        self.causes_at_cargo = self.causes;
        self.file_names.pop_front();
    }

    /// Ends the last file of the run. Returns the notes that this makes known, the sums and the outcome of the whole run,
    /// and its exit status. If the lines of the file are the output of a command, `command` is how it ended. If
    /// `no_tests_pass` is true, the status of a run without tests is 0.
    ///
    /// Do not call `end_file` for the last file: `finish` would then end one more file, which has no event.
    ///
    /// Fails if a number of the run does not fit its counter. After an error the run must not be used.
    pub fn finish(
        &mut self,
        command: Option<CommandEnd>,
        no_tests_pass: bool,
    ) -> Result<Finished, RunError> {
        self.on_command_ended(command);
        let notes = self.end_file()?;
        let end = self.end();
        let status = exit_status(end.outcome, no_tests_pass);
        Ok(Finished { notes, end, status })
    }

    /// Returns the sums and the outcome of the run, up to the last file that has ended.
    pub fn end(&self) -> RunEnd {
        self.totals.end(self.contradictions, self.cancels)
    }

    /// Adds a contradiction if the file has no event of a harness, no failed test and no other contradiction, unless
    /// its command ended with status 0 or was not started.
    fn push_no_event(&self, notes: &mut Vec<Note>) {
        let explained = self.causes > self.causes_at_file || says_more(&self.command);
        if self.has_event || explained {
            return;
        }
        let file = first_name(&self.file_names);
        push_contradiction(Contradiction::NoEvent { file }, notes);
    }

    /// Adds notes to the sums. Fails if a sum does not fit.
    fn learn(&mut self, notes: &[Note]) -> Result<(), RunError> {
        for note in notes {
            self.learn_note(note)?;
        }
        Ok(())
    }

    /// Adds a note to the sums. Fails if a sum does not fit.
    pub(crate) fn learn_note(&mut self, note: &Note) -> Result<(), RunError> {
        match note {
            Note::Test(test) => {
                if matches!(test.outcome, TestOutcome::Failed(_)) {
                    self.causes = one_more(self.causes)?;
                }
                Ok(())
            }
            Note::Contradiction(contradiction) => self.learn_contradiction(contradiction),
            Note::Flaky(_) | Note::NotRun(_) => Ok(()),
            Note::Suite(suite) => self.totals.add(suite),
        }
    }

    /// Counts a contradiction. Fails if a sum does not fit.
    fn learn_contradiction(&mut self, contradiction: &Contradiction) -> Result<(), RunError> {
        self.contradictions = one_more(self.contradictions)?;
        if matches!(contradiction, Contradiction::Cancelled(_)) {
            self.cancels = one_more(self.cancels)?;
        }
        if is_new(contradiction) {
            self.causes = one_more(self.causes)?;
        }
        Ok(())
    }
}

/// Returns the first of some names.
fn first_name(names: &VecDeque<String>) -> Option<String> {
    match names.front() {
        Some(name) => Some(name.clone()),
        None => None,
    }
}

/// Returns true if a contradiction is counted among the causes when it becomes known. A failure of cargo is counted at
/// its line, and that a file has no event explains nothing.
fn is_new(contradiction: &Contradiction) -> bool {
    !matches!(
        contradiction,
        Contradiction::Cargo(_) | Contradiction::NoEvent { .. }
    )
}
