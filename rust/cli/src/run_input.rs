//! Reads the files of a run, or what its command writes, and shows the progress meanwhile.

use self::failed_list::FailedList;
use crate::command::prepared::Prepared;
use crate::command::programs::Retries;
use crate::interrupt::Interrupt;
use crate::kept_run::KeptRun;
use crate::lines::Lines;
use crate::others::Others;
use crate::output_files::{STANDARD_INPUT, SavedRun};
use crate::program::{DEVICE_FAILED, Failure};
use crate::progress_line::{LONGEST_PAUSE, Output, ProgressLine, StartTimes};
use crate::reading::Reading;
use crate::report::fault::Fault;
use crate::report::{Ended, Report, progress_text};
use crate::standard_streams::{StandardError, StandardInput};
use deodarsieve::CancelReason;
use std::cell::RefCell;
use std::collections::VecDeque;
use std::fs::File;
use std::io::{self, Read, Stderr, Write};
use std::mem;
use std::path::Path;
use std::time::{Duration, Instant};

mod command;
mod failed_list;
mod stand_ins;

/// The message after Ctrl-C, if the input stays open.
const STILL_READING: &str =
    "test-report: the summary follows at the end of the input; a second Ctrl-C ends without it";

/// Why a run is not saved that is read from files or from a pipe.
const FILES_UNSAVED: &str = "only the run of a command can be saved";

/// Why the run of a command without stand-ins is not saved.
const COMMAND_UNSAVED: &str = "the run of this command cannot be saved. That needs a `cargo test` or `cargo bench`, no \
                               RUSTC_BOOTSTRAP, and no setting that names a runner or a rustdoc";

/// Why tests are not run again that are read from files or from a pipe.
const FILES_NOT_AGAIN: &str = "there is no command whose tests can be run again";

/// Why tests of a command without stand-ins are not run again.
const COMMAND_NOT_AGAIN: &str = "single tests of this command cannot be run again. That needs a `cargo test` or `cargo \
                                 bench`, no RUSTC_BOOTSTRAP, and no setting that names a runner or a rustdoc";

/// Why tests of programs without known names are not run again.
const NAMELESS_NOT_AGAIN: &str =
    "cargo does not say which programs it has built if it has a `--message-format`";

/// The folder of this program in cargo's target folder.
const FOLDER: &str = "test-report";

/// The name of a file that somebody has forgotten the `--` before.
const CARGO: &str = "cargo";

/// How long stand-ins have after Ctrl-C to write the failed tests that they hold back.
const HELD: Duration = Duration::from_secs(1);

/// What a run is read from.
#[derive(Debug, PartialEq, Eq)]
pub enum Input {
    /// These files, one after another. One is standard input.
    Files {
        paths: Vec<String>,

        /// A message that is written before the first one is read, if there is one.
        message: Option<&'static str>,
    },

    /// The output of this command.
    Command(Box<Prepared>),
}

impl Input {
    /// Returns the files that are read.
    pub fn files(&self) -> &[String] {
        match self {
            Input::Files { paths, .. } => paths,
            Input::Command(_) => &[],
        }
    }

    /// Returns why the run cannot be saved, or `None` if it can.
    pub fn why_unsaved(&self) -> Option<&'static str> {
        match self {
            Input::Files { .. } => Some(FILES_UNSAVED),
            Input::Command(prepared) if prepared.stand_in.is_none() => Some(COMMAND_UNSAVED),
            Input::Command(_) => None,
        }
    }

    /// Returns why single tests of the run cannot be run again, or `None` if they can. `only_failed` is true if this depends on
    /// the last run.
    pub fn why_not_again(&self, only_failed: bool) -> Option<&'static str> {
        match self {
            Input::Files { .. } => Some(FILES_NOT_AGAIN),
            Input::Command(prepared) => match &prepared.stand_in {
                None => Some(COMMAND_NOT_AGAIN),
                Some(stand_in) if only_failed && !stand_in.has_names => Some(NAMELESS_NOT_AGAIN),
                Some(_) => None,
            },
        }
    }

    /// Returns the names of the files as the report shows them, if there are several.
    pub fn file_names(&self) -> VecDeque<String> {
        match self.files() {
            [] | [_] => VecDeque::new(),
            files => files.iter().map(|path| shown_path(path)).collect(),
        }
    }
}

/// Returns the name of a file as the report shows it.
fn shown_path(path: &str) -> String {
    match path {
        STANDARD_INPUT => "standard input".to_string(),
        _ => path.to_string(),
    }
}

/// Which lines that are no events are passed on to standard error.
#[derive(Clone, Copy, Debug, PartialEq, Eq)]
pub enum PassOn {
    /// Those of standard input and of a command, but not those of files.
    Auto,
    Always,
    Never,
}

impl PassOn {
    /// Returns true if the lines of a file are passed on.
    fn of_file(self, path: &str) -> bool {
        match self {
            PassOn::Auto => path == STANDARD_INPUT,
            PassOn::Always => true,
            PassOn::Never => false,
        }
    }

    /// Returns true if the lines of a command are passed on.
    fn of_command(self) -> bool {
        self != PassOn::Never
    }
}

/// The standard streams to which the program writes while it reads.
pub struct Streams<'a, W> {
    /// The line of progress, which both hide before they write.
    pub line: &'a RefCell<ProgressLine<Stderr>>,

    /// Standard output, for the report.
    pub output: Output<'a, W>,

    /// Standard error, for the lines that are no events.
    pub others: Others<Output<'a, StandardError>>,

    /// The file to which the lines of the run are saved, if there is one.
    pub saved: Option<SavedRun>,
}

impl<'a, W: Write> Streams<'a, W> {
    /// Returns standard error, this writer as standard output, and the file to which the lines of the run are saved, if
    /// there is one.
    pub fn new(
        writer: W,
        line: &'a RefCell<ProgressLine<Stderr>>,
        saved: Option<SavedRun>,
    ) -> Streams<'a, W> {
        Streams {
            line,
            output: Output::new(writer, line),
            others: Others::new(Output::new(StandardError::get(), line)),
            saved,
        }
    }
}

/// A report while its run is read.
pub struct RunReader<'a, 'line, W: Write> {
    report: Report,

    /// The line that has begun.
    lines: Lines,
    streams: &'a mut Streams<'line, W>,
    pass_on: PassOn,
    interrupt: &'a Interrupt,

    /// Why the run is cancelled, as far as the report knows. It forgets this at the end of a file.
    cancelled: Option<CancelReason>,

    /// How often stand-ins run failed tests again.
    retries: Retries,

    /// True while stand-ins may hold failed tests back.
    are_held: bool,

    /// When it was first seen meanwhile that Ctrl-C has come.
    interrupted: Option<Instant>,

    /// True if the line of progress is wanted.
    shows_progress: bool,
    starts: StartTimes,

    /// When the command started that runs the tests.
    started: Option<Instant>,

    /// The run as it is kept for later, unless it is saved elsewhere or has no stand-ins.
    kept: Option<KeptRun>,

    /// The tests that failed last, once the programs of the run are known.
    failed: Option<FailedList>,

    /// The message after Ctrl-C, until it was written. It is absent from the start if nobody would read it.
    message: Option<&'static str>,
}

impl<'a, 'line, W: Write> RunReader<'a, 'line, W> {
    /// Returns a report that has read nothing. `shows_progress` is true if the line of progress is wanted, and
    /// `has_reader` if a message on standard error would be read.
    pub fn new(
        mut report: Report,
        streams: &'a mut Streams<'line, W>,
        pass_on: PassOn,
        interrupt: &'a Interrupt,
        shows_progress: bool,
        has_reader: bool,
    ) -> RunReader<'a, 'line, W> {
        if !shows_progress {
            report.name_hung_tests();
        }
        RunReader {
            report,
            lines: Lines::default(),
            streams,
            pass_on,
            interrupt,
            cancelled: None,
            retries: Retries::default(),
            are_held: false,
            interrupted: None,
            shows_progress,
            starts: StartTimes::default(),
            started: None,
            kept: None,
            failed: None,
            message: has_reader.then_some(STILL_READING),
        }
    }

    /// Reads the whole run, and writes the report.
    ///
    /// Fails if a read or a write does.
    pub fn report(mut self, input: Input) -> Result<Ended, Failure> {
        let command = match input {
            Input::Files { paths, message } => {
                refuse_command(&paths)?;
                if let Some(message) = message {
                    self.streams.line.borrow_mut().say(message);
                }
                for (place, path) in paths.iter().enumerate() {
                    if place > 0 {
                        self.report.end_file(&mut self.streams.output)?;
                        self.cancelled = None;
                    }
                    self.read_file(path)?;
                }
                None
            }
            Input::Command(prepared) => self.run_command(&prepared)?,
        };
        Ok(self.report.finish(command, &mut self.streams.output)?)
    }

    /// Reads a file of the run.
    fn read_file(&mut self, path: &str) -> Result<(), Failure> {
        self.streams.others.are_wanted = self.pass_on.of_file(path);
        if path == STANDARD_INPUT {
            return self.read(StandardInput::get());
        }
        let file = File::open(path).map_err(|error| unopened(path, error))?;
        self.read(file)
    }

    /// Reads a file of the run to its end.
    fn read(&mut self, reader: impl Read + Send + 'static) -> Result<(), Failure> {
        let reading = Reading::start(reader).map_err(unread)?;
        loop {
            if let Some(piece) = self.next_piece(&reading)? {
                self.take_piece(&piece)?;
                if piece.is_empty() {
                    return Ok(self.end_line()?);
                }
            }
            self.draw();
        }
    }

    /// Returns the next piece, or `None` if something else is to be done first.
    fn next_piece(&mut self, reading: &Reading) -> Result<Option<Vec<u8>>, Failure> {
        let piece = reading.next_piece(self.longest_wait()).map_err(unread)?;
        if piece.is_none() {
            self.say_once();
        }
        Ok(piece)
    }

    /// Returns how long to wait for input until something else is to be done, if anything is.
    fn longest_wait(&self) -> Option<Duration> {
        let line = self.streams.line.borrow().time_until_due(Instant::now());
        line.or(self.message.map(|_| LONGEST_PAUSE))
    }

    /// Passes the lines that end in a piece of a file to the report.
    fn take_piece(&mut self, piece: &[u8]) -> Result<(), Fault> {
        self.note_cancel();
        let mut lines = mem::take(&mut self.lines);
        lines.take(piece, |line| self.take_line(line))?;
        self.lines = lines;
        self.note_input();
        Ok(())
    }

    /// Lets the line of progress show what has come, from the first suite on.
    fn note_input(&self) {
        if self.report.run().has_suite() && self.shows_progress {
            self.streams.line.borrow_mut().note_input();
        }
    }

    /// Passes a line to the report. From the first suite on cargo repeats no line: tests print what is passed on.
    fn take_line(&mut self, line: &[u8]) -> Result<(), Fault> {
        let streams = &mut *self.streams;
        self.report
            .on_line(line, &mut streams.output, &mut streams.others)?;
        if self.report.run().has_suite() {
            streams.others.repeated.clear();
        }
        Ok(())
    }

    /// Passes the rest of the last line to the report. It is a line unless it is empty.
    fn end_line(&mut self) -> Result<(), Fault> {
        match self.lines.end() {
            Some(line) => self.take_line(&line),
            None => Ok(()),
        }
    }

    /// Tells the report why the run is cancelled, if a signal has come. Ctrl-C after SIGTERM is another reason, so the
    /// report gets it, too. Returns the reason if the report did not know it.
    fn note_cancel(&mut self) -> Option<CancelReason> {
        let reason = self.interrupt.reason()?;
        if self.cancelled == Some(reason)
            || reason == CancelReason::Interrupt && self.waits_for_held()
        {
            return None;
        }
        self.cancelled = Some(reason);
        self.report.cancel(reason);
        Some(reason)
    }

    /// Returns true for a moment after Ctrl-C, if stand-ins may hold failed tests back. Then they write these and, after
    /// them, that Ctrl-C has come.
    fn waits_for_held(&mut self) -> bool {
        self.are_held && self.interrupted.get_or_insert_with(Instant::now).elapsed() < HELD
    }

    /// Writes the message after Ctrl-C, once.
    fn say_once(&mut self) {
        if self.interrupt.has_come()
            && let Some(message) = self.message.take()
        {
            self.streams.line.borrow_mut().say(message);
        }
    }

    /// Draws the line of progress if it is due. It is not before the first suite.
    fn draw(&mut self) {
        let (run, now) = (self.report.run(), Instant::now());
        let mut line = self.streams.line.borrow_mut();
        line.refresh(now, || {
            let first = run.first_running().map(|test| test.order);
            let seconds = self.starts.seconds(run.tests_started(), first, now);
            progress_text(run, seconds)
        });
    }
}

/// Fails if the first file is not there and is called `cargo`: somebody meant a command.
fn refuse_command(files: &[String]) -> Result<(), Failure> {
    match files.first() {
        Some(path) if path == CARGO && !Path::new(path).exists() => {
            let command = files.join(" ");
            let hint = format!("to run a command: test-report -- {command}");
            Err(Failure::new(DEVICE_FAILED, hint))
        }
        _ => Ok(()),
    }
}

/// Returns the failure to open a file of the run.
fn unopened(path: &str, error: io::Error) -> Failure {
    let message = format!("{path} cannot be opened");
    Failure::new(DEVICE_FAILED, message).caused_by(Some(error))
}

/// Returns the failure of a read.
fn unread(error: io::Error) -> Failure {
    Failure::from(Fault::Read).caused_by(Some(error))
}
