//! Runs the command of a run, and reads what it writes. Before `cargo test`, a cargo builds the tests and says which
//! programs they are, so that the suites have names.

mod build;

pub(super) use self::build::Built;
use super::{RunReader, unread};
use crate::command::artifacts::suite_names;
use crate::command::end::end_of;
use crate::command::prepared::{Build, Prepared};
use crate::command::running::{RunningCommand, not_waited};
use crate::process_streams::{LOOK, ProcessStreams, Stream};
use crate::program::Failure;
use deodarsieve_run::CommandEnd;
use deodarsieve_run::SuiteNames;
use std::io::{self, Write};
use std::thread;
use std::time::{Duration, Instant};

/// The message after Ctrl-C, if the command does not end.
const STILL_RUNNING: &str =
    "test-report: the summary follows at the end of the command; a second Ctrl-C ends without it";

/// The time between two looks at a command that has closed its output and has not ended.
const SHORT_LOOK: Duration = Duration::from_millis(5);

impl<W: Write> RunReader<'_, '_, W> {
    /// Runs the command of the run, and reads what it writes. Returns how it ended, unless a line of the run says so.
    pub(super) fn run_command(
        &mut self,
        prepared: &Prepared,
    ) -> Result<Option<CommandEnd>, Failure> {
        self.streams.others.are_wanted = self.pass_on.of_command();
        self.message = self.message.map(|_| STILL_RUNNING);
        if let Some(message) = prepared.message {
            self.streams.line.borrow_mut().say(message);
        }
        self.report.set_advice(prepared.advice.clone());
        self.report
            .set_errors_are_passed_on(self.pass_on.of_command());
        match &prepared.stand_in {
            Some(stand_in) => {
                self.retries = stand_in.again.retries;
                self.are_held = self.retries.count > 0;
                self.run_with_stand_ins(prepared, stand_in)?;
                Ok(None)
            }
            None => Ok(Some(self.run_in_one_pipe(prepared)?)),
        }
    }

    /// Runs a command without stand-ins. Both of its streams are one pipe.
    fn run_in_one_pipe(&mut self, prepared: &Prepared) -> Result<CommandEnd, Failure> {
        let end = match &prepared.build {
            Some(build) => self.build_and_run(prepared, build)?,
            None => {
                self.report.start_command(SuiteNames::new());
                self.run(prepared)?
            }
        };
        self.note_cancel();
        self.end_line()?;
        Ok(end)
    }

    /// Builds the tests of a command and, if that succeeds, runs it. Returns how the build or the run ended.
    fn build_and_run(&mut self, prepared: &Prepared, build: &Build) -> Result<CommandEnd, Failure> {
        let built = self.build(prepared, build)?;
        let names = suite_names(&built.programs, &build.folder);
        self.report.start_command(names);
        if let Some(end) = self.end_before_run(&built.end) {
            self.fail_build(built);
            return Ok(end);
        }
        self.streams.others.repeated = built.repeated(prepared.is_quiet());
        self.run(prepared)
    }

    /// Returns how a command ended that is not run after its build: as the build did, or by a signal that came meanwhile
    /// and did not reach the run.
    pub(super) fn end_before_run(&self, build: &CommandEnd) -> Option<CommandEnd> {
        if !matches!(build, CommandEnd::Status { code: 0 }) {
            return Some(build.clone());
        }
        let number = self.interrupt.signal()?;
        Some(CommandEnd::Signal { number })
    }

    /// Takes a build after which nothing is run. If it was not started or a signal has come, its end says why, unless the
    /// compiler does.
    fn fail_build(&mut self, built: Built) {
        let has_ended = !matches!(built.end, CommandEnd::NotStarted { .. });
        if built.messages.have_errors() || has_ended && self.interrupt.signal().is_none() {
            self.report.fail_build(built.into_failed());
        }
    }

    /// Runs the command, and passes what it writes to the report. Returns how it ended.
    fn run(&mut self, prepared: &Prepared) -> Result<CommandEnd, Failure> {
        match RunningCommand::start(prepared.command()) {
            Ok((mut command, output)) => {
                let started = Instant::now();
                let streams = ProcessStreams::start([(Stream::Output, Box::new(output))]);
                let mut streams = streams.map_err(unread)?;
                self.read_output(&mut streams, &mut command, |reader, _, piece| {
                    reader.take_some(piece)
                })?;
                let end = self.wait_for(&mut command)?;
                self.report.add_duration(started.elapsed());
                Ok(end)
            }
            Err(error) => Ok(not_started(&error)),
        }
    }

    /// Passes a piece of output to the report, if it is not empty.
    fn take_some(&mut self, piece: &[u8]) -> Result<(), Failure> {
        if !piece.is_empty() {
            self.take_piece(piece)?;
        }
        Ok(())
    }

    /// Reads what a command writes, until the pipe ends or the command is over, and takes each piece.
    pub(super) fn read_output(
        &mut self,
        streams: &mut ProcessStreams,
        command: &mut RunningCommand,
        mut take: impl FnMut(&mut Self, Stream, &[u8]) -> Result<(), Failure>,
    ) -> Result<(), Failure> {
        while !streams.are_over(Instant::now()) {
            let wait = self.longest_wait().map_or(LOOK, |wait| wait.min(LOOK));
            match streams.next_piece(wait).map_err(unread)? {
                Some((stream, piece)) => take(self, stream, &piece)?,
                None => self.say_once(),
            }
            self.pass_signal_on(command);
            if command.status().map_err(not_waited)?.is_some() {
                streams.note_end(Instant::now());
            }
            self.draw();
        }
        Ok(())
    }

    /// Waits for the end of a command whose output has ended.
    pub(super) fn wait_for(&mut self, command: &mut RunningCommand) -> Result<CommandEnd, Failure> {
        // What builds the tests holds nothing back.
        self.are_held &= self.started.is_none();
        loop {
            if let Some(status) = command.status().map_err(not_waited)? {
                return Ok(end_of(status));
            }
            thread::sleep(SHORT_LOOK);
            self.pass_signal_on(command);
            self.say_once();
            self.draw();
        }
    }

    /// Sends SIGTERM on to a command, and to what it leaves behind. Ctrl-C on a terminal reaches these by itself.
    fn pass_signal_on(&self, command: &mut RunningCommand) {
        if self.interrupt.take_terminate() {
            command.terminate_all();
        }
        command.end_all();
    }
}

/// Returns the end of a command that could not be started.
pub(super) fn not_started(error: &io::Error) -> CommandEnd {
    CommandEnd::NotStarted {
        error: error.to_string(),
    }
}
