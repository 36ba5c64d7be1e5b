//! Builds the tests of a command before they are run.
//!
//! Cargo's messages about the build come from its standard output, as JSON. Its standard error is that of this program
//! if that is a terminal: cargo's progress and colours are its own there. Otherwise it is read, for the error that
//! cargo ends with, and passed on.
//!
//! Cargo writes a line such as `Finished ..` in parts, right after the messages about what is built already. So nothing
//! may be written between its parts. On a terminal warnings wait for a moment, and for the end of cargo if it has
//! finished. In a pipe cargo's words wait until their line is whole, and for a moment, so that they come after the
//! messages.

use super::not_started;
use crate::cargo_message::CargoMessage;
use crate::command::artifacts::Artifacts;
use crate::command::prepared::{Build, Prepared};
use crate::command::programs::TestProgram;
use crate::command::repeated::{CargoWords, Repeated};
use crate::command::running::{RunningCommand, not_waited};
use crate::lines::Lines;
use crate::process_streams::{LOOK, ProcessStreams, Stream};
use crate::program::Failure;
use crate::report::build::{CompilerMessages, FailedBuild, last_error};
use crate::report::screen::is_dumb_terminal;
use crate::run_input::{RunReader, unread};
use bstr::ByteSlice;
use deodarsieve_run::CommandEnd;
use std::convert::Infallible;
use std::io::{self, IsTerminal, PipeReader, Write, pipe};
use std::mem;
use std::process::{Command, Stdio};
use std::time::{Duration, Instant};

/// What takes the line away on which cargo shows its progress.
const ERASED: &[u8] = b"\r\x1b[K";

/// How long what is to come later waits.
const MOMENT: Duration = Duration::from_millis(30);

/// A build of the tests of a command.
pub(in crate::run_input) struct Built {
    /// The test programs.
    pub(in crate::run_input) programs: Vec<TestProgram>,

    /// What the compiler said.
    pub(in crate::run_input) messages: CompilerMessages,

    /// The texts of it that were written to standard error.
    texts: Vec<u8>,

    /// What cargo wrote to standard error, or `None` if it wrote to that of this program.
    words: Option<Vec<u8>>,

    /// How cargo ended.
    pub(in crate::run_input) end: CommandEnd,
}

/// What a build has written until now.
struct Output {
    artifacts: Artifacts,
    messages: CompilerMessages,
    texts: Vec<u8>,
    words: Option<Vec<u8>>,

    /// The line of standard output that has begun.
    lines: Lines,

    /// What waits until it is written to standard error: warnings on a terminal, and otherwise cargo's words.
    waiting: Vec<u8>,

    /// Since when something waits.
    since: Option<Instant>,

    /// True if cargo has said that the build is over.
    is_finished: bool,
}

impl Built {
    /// Returns the lines that the cargo which runs the tests would repeat. `is_quiet` is true if cargo writes no
    /// warnings of its own.
    pub(in crate::run_input) fn repeated(&self, is_quiet: bool) -> Repeated {
        match &self.words {
            Some(words) => Repeated::new(
                &[self.texts.as_slice(), words].concat(),
                CargoWords::Known,
                is_quiet,
            ),
            None if is_quiet => Repeated::new(&self.texts, CargoWords::Known, is_quiet),
            None => Repeated::new(&self.texts, CargoWords::Unknown, is_quiet),
        }
    }

    /// Returns the error that cargo ended with, if it is known: in the words of cargo or, if it was not started, of the
    /// system.
    pub(in crate::run_input) fn error(&self) -> Option<String> {
        match &self.end {
            CommandEnd::NotStarted { error } => Some(error.clone()),
            CommandEnd::Status { code: 0 } => None,
            CommandEnd::Signal { .. } | CommandEnd::Status { .. } | CommandEnd::Error { .. } => {
                self.words.as_deref().and_then(last_error)
            }
        }
    }

    /// Returns why the build failed.
    pub(super) fn into_failed(self) -> FailedBuild {
        let end = match (&self.end, self.error()) {
            (CommandEnd::Status { code }, Some(words)) => CommandEnd::Error { code: *code, words },
            (end, _) => end.clone(),
        };
        FailedBuild {
            messages: self.messages,
            end: Some(end),
        }
    }
}

impl Output {
    /// Returns what a build that has written nothing has written. `is_terminal` is true if its standard error is a
    /// terminal.
    fn new(is_terminal: bool) -> Output {
        Output {
            artifacts: Artifacts::default(),
            messages: CompilerMessages::default(),
            texts: Vec::new(),
            words: (!is_terminal).then(Vec::new),
            lines: Lines::default(),
            waiting: Vec::new(),
            since: None,
            is_finished: false,
        }
    }

    /// Returns true if the standard error of the build is a terminal.
    fn is_on_terminal(&self) -> bool {
        self.words.is_none()
    }

    /// Makes bytes wait.
    fn hold(&mut self, bytes: &[u8]) {
        self.waiting.extend_from_slice(bytes);
        self.since.get_or_insert_with(Instant::now);
    }

    /// Returns the whole lines that have waited long enough.
    fn take_due(&mut self) -> Vec<u8> {
        let is_due = self.since.is_some_and(|since| since.elapsed() >= MOMENT);
        if !is_due || self.is_on_terminal() && self.is_finished {
            return Vec::new();
        }
        self.since = None;
        let end = self.waiting.rfind_byte(b'\n').map_or(0, |at| at + 1);
        self.waiting.drain(..end).collect()
    }

    /// Returns all that waits, as whole lines.
    fn take_waiting(&mut self) -> Vec<u8> {
        self.since = None;
        let mut bytes = mem::take(&mut self.waiting);
        if bytes.last().is_some_and(|byte| *byte != b'\n') {
            bytes.push(b'\n');
        }
        bytes
    }
}

impl<W: Write> RunReader<'_, '_, W> {
    /// Builds the tests of a command, and passes on what cargo and the compiler say.
    pub(in crate::run_input) fn build(
        &mut self,
        prepared: &Prepared,
        build: &Build,
    ) -> Result<Built, Failure> {
        let is_shown = self.pass_on.of_command() && io::stderr().is_terminal();
        let mut output = Output::new(is_shown);
        let end = match start(prepared.build_command(build), is_shown) {
            Ok((mut command, streams)) => {
                self.read_build(&mut command, streams, &mut output)?;
                self.wait_for(&mut command)?
            }
            Err(error) => not_started(&error),
        };
        Ok(Built {
            programs: output.artifacts.into_programs(),
            messages: output.messages,
            texts: output.texts,
            words: output.words,
            end,
        })
    }

    /// Reads what a build writes, until it is over.
    fn read_build(
        &mut self,
        command: &mut RunningCommand,
        mut streams: ProcessStreams,
        output: &mut Output,
    ) -> Result<(), Failure> {
        while !streams.are_over(Instant::now()) {
            let longest = if output.since.is_some() { MOMENT } else { LOOK };
            let wait = self
                .longest_wait()
                .map_or(longest, |wait| wait.min(longest));
            match streams.next_piece(wait).map_err(unread)? {
                Some((Stream::Output, piece)) => self.take_messages(&piece, output),
                Some((Stream::Error, piece)) => take_words(&piece, output),
                None => self.say_once(),
            }
            self.write_on(&output.take_due());
            self.pass_signal_on(command);
            if command.status().map_err(not_waited)?.is_some() {
                streams.note_end(Instant::now());
            }
        }
        if let Some(line) = output.lines.end() {
            self.take_message(&line, output);
        }
        self.write_on(&output.take_waiting());
        Ok(())
    }

    /// Takes the lines that end in a piece of a build's standard output.
    fn take_messages(&mut self, piece: &[u8], output: &mut Output) {
        let mut lines = mem::take(&mut output.lines);
        let taken: Result<(), Infallible> = lines.take(piece, |line| {
            self.take_message(line, output);
            Ok(())
        });
        let Ok(()) = taken;
        output.lines = lines;
    }

    /// Takes a line of a build's standard output. What is no message of cargo is passed on.
    fn take_message(&mut self, line: &[u8], output: &mut Output) {
        match CargoMessage::read(line) {
            Some(CargoMessage::CompilerMessage(message)) => {
                let is_warning = message.message.is_warning();
                let text = output.messages.on_message(line, message);
                output.texts.extend_from_slice(text.as_bytes());
                self.write_text(text.as_bytes(), is_warning, output);
            }
            Some(CargoMessage::CompilerArtifact(artifact)) => {
                output.artifacts.add(&artifact);
                output.messages.on_artifact(line, &artifact);
            }
            Some(CargoMessage::BuildFinished) => output.is_finished = true,
            Some(CargoMessage::BuildScriptExecuted) => {}
            None => self.write_text(&[line, b"\n"].concat(), false, output),
        }
    }

    /// Writes a text to standard error. On a terminal it takes the place of the line on which cargo shows its progress,
    /// and may wait if `can_wait` is true.
    fn write_text(&mut self, text: &[u8], can_wait: bool, output: &mut Output) {
        if text.is_empty() || !output.is_on_terminal() {
            return self.write_on(text);
        }
        // On a dumb terminal cargo shows no progress.
        if !is_dumb_terminal() {
            output.hold(ERASED);
        }
        output.hold(text);
        if !can_wait {
            self.write_on(&output.take_waiting());
        }
    }

    /// Writes bytes to standard error, if the lines of a command are passed on.
    pub(in crate::run_input) fn write_on(&mut self, bytes: &[u8]) {
        // The writer remembers a failure.
        let _ = self.streams.others.write_all(bytes);
    }
}

/// Takes what a build writes to standard error, where it is no terminal.
fn take_words(piece: &[u8], output: &mut Output) {
    if let Some(words) = &mut output.words {
        words.extend_from_slice(piece);
        output.hold(piece);
    }
}

/// Starts a build. Returns it and what it writes. It writes to standard error of this program if `is_shown` is true,
/// and otherwise that is read.
fn start(mut command: Command, is_shown: bool) -> io::Result<(RunningCommand, ProcessStreams)> {
    if is_shown {
        let (output, writer) = pipe()?;
        command.stdout(writer).stderr(Stdio::inherit());
        // The command is dropped, and with it the end of the pipe that this program would have.
        let running = RunningCommand::start_alone(&mut command)?;
        drop(command);
        let output: Box<PipeReader> = Box::new(output);
        return Ok((running, ProcessStreams::start([(Stream::Output, output)])?));
    }
    let (running, output, errors) = RunningCommand::start_apart(&mut command)?;
    let streams = ProcessStreams::start([
        (Stream::Output, Box::new(output)),
        (Stream::Error, Box::new(errors)),
    ])?;
    Ok((running, streams))
}
