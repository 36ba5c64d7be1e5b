//! Runs a command whose test programs have stand-ins. Their lines are those of the run, and so are some that say what
//! became of the command. What cargo and the tests write to standard error is passed on, and is no part of the run.

use super::command::{Built, not_started};
use super::failed_list::FailedList;
use super::{FOLDER, RunReader, unread};
use crate::command::cargo_messages::CargoMessages;
use crate::command::end::process_end_of;
use crate::command::failed_tests::FailedTests;
use crate::command::prepared::Prepared;
use crate::command::programs::{PROGRAMS, Plan, ProgramsFile, TestProgram};
use crate::command::run_line::{CancelledBy, CommandLine, MissingTests, RunLine, is_run_line};
use crate::command::running::RunningCommand;
use crate::command::stand_in::documentation_of;
use crate::command::standing_in::StandIn;
use crate::command::workspace::Workspace;
use crate::kept_run::{KeptRun, LIMIT as MOST_KEPT};
use crate::lines::Lines;
use crate::process_streams::{ProcessStreams, Stream};
use crate::program::Failure;
use crate::report::fault::Fault;
use crate::report::missing_words;
use deodarsieve::CancelReason;
use deodarsieve_run::{CommandEnd, Line};
use std::collections::BTreeSet;
use std::io::{self, Write};
use std::mem;
use std::time::{Duration, Instant};

/// The message if only the tests that failed last were to run, and their list cannot be found.
const NO_FOLDER: &str = "cargo does not say where the list of failed tests is, so all tests run";

/// The last line of a run, if nobody knows how the command ended.
const LAST_LINE: &[u8] = br#"{"type":"command","event":"ended"}"#;

/// The front of the message if the file of that list has none.
const UNREADABLE: &str = "the list of the failed tests cannot be read";

impl<W: Write> RunReader<'_, '_, W> {
    /// Builds the tests of a command, and runs it with stand-ins. The run is kept in cargo's target folder, unless it is saved,
    /// and so is the list of the tests that failed, even if nobody reads the report any more.
    pub(super) fn run_with_stand_ins(
        &mut self,
        prepared: &Prepared,
        stand_in: &StandIn,
    ) -> Result<(), Failure> {
        if self.streams.saved.is_none() {
            self.kept = Some(KeptRun::new(MOST_KEPT));
        }
        self.report.collect_results(stand_in.measures);
        let end = self.run_to_end(prepared, stand_in);
        let has_finished = matches!(
            end,
            Ok(CommandEnd::Status { .. } | CommandEnd::Error { .. })
        );
        if end.is_err() {
            // This ends the program that runs.
            let _ = (self.report).on_line(LAST_LINE, &mut io::sink(), &mut io::sink());
            self.take_results();
            self.save_now();
        }
        self.keep(has_finished && self.cancelled.is_none());
        end.map(drop)
    }

    /// Does the same up to the last line of the run, which says how the command ended. Returns that.
    fn run_to_end(
        &mut self,
        prepared: &Prepared,
        stand_in: &StandIn,
    ) -> Result<CommandEnd, Failure> {
        let mut file = ProgramsFile::create()?;
        self.take_command_line(CommandLine::Started)?;
        let (end, error) = self.build_and_watch(prepared, stand_in, &mut file)?;
        self.note_cancel_in_run()?;
        let time = self.started.map(|started| started.elapsed());
        self.take_command_line(CommandLine::Ended {
            end: process_end_of(&end),
            error,
            time: time.map(in_seconds),
        })?;
        Ok(end)
    }

    /// Builds the tests of a command if cargo can do that alone, and runs it if that succeeds. What the compiler says is part
    /// of the run. Returns how the build or the run ended, and the error that it ended with.
    fn build_and_watch(
        &mut self,
        prepared: &Prepared,
        stand_in: &StandIn,
        file: &mut ProgramsFile,
    ) -> Result<(CommandEnd, Option<String>), Failure> {
        let built = match &prepared.build {
            Some(build) => Some(self.build(prepared, build)?),
            None => None,
        };
        // Two cargos that begin at once wait for each other, and say so.
        let workspace = stand_in.workspace.ask();
        if let (Some(kept), Some(workspace)) = (&mut self.kept, &workspace) {
            kept.set_folder(workspace.target.join(FOLDER));
        }
        let mut programs = Vec::new();
        if let Some(built) = built {
            self.take_messages_of(&built)?;
            if let Some(end) = self.end_before_run(&built.end) {
                return Ok((end, built.error()));
            }
            self.streams.others.repeated = built.repeated(prepared.is_quiet());
            programs = built.programs;
        }
        let failed = self.failed_tests(stand_in, workspace, &programs);
        file.write(&Plan {
            programs,
            failed,
            retries: self.retries,
        })?;
        self.watch(prepared, file, &stand_in.path)
    }

    /// Takes what the compiler said in a build. The file of the run gets these lines when the first program has started: if
    /// the file is in the folder of a package, the cargo that runs the programs may take a change of it for one of the package.
    fn take_messages_of(&mut self, built: &Built) -> Result<(), Fault> {
        for line in built.messages.lines() {
            self.take_own_line(line.as_bytes())?;
        }
        Ok(())
    }

    /// Reads the list of the tests that failed last. Returns those that run if no others do, and says how many they are.
    fn failed_tests(
        &mut self,
        stand_in: &StandIn,
        workspace: Option<Workspace>,
        programs: &[TestProgram],
    ) -> Option<FailedTests> {
        if !stand_in.has_names {
            return None;
        }
        let wants = stand_in.again.only_failed;
        let Some(workspace) = workspace else {
            if wants {
                self.say(NO_FOLDER);
            }
            return None;
        };
        let names = names_of(stand_in, &workspace, programs);
        let file = FailedTests::path_in(&workspace.target.join(FOLDER), stand_in.measures);
        let mut list = FailedList::read(file, names);
        let mut selected = None;
        if list.is_unreadable {
            let so = if wants { "all tests run, and " } else { "" };
            self.say(&format!("{UNREADABLE}, so {so}a new one is written"));
        } else if wants {
            let (failed, message) = list.select(stand_in.has_filters);
            self.say(&message);
            selected = failed;
        }
        self.failed = Some(list);
        selected
    }

    /// Ends the kept run, and writes the list of the tests that failed. If that fails, says so. `is_whole` is true if all
    /// programs ran that were to run.
    fn keep(&mut self, is_whole: bool) {
        let (kept, failed) = (self.kept.take(), self.failed.take());
        let _held = self.interrupt.hold();
        if let Some(message) = kept.and_then(KeptRun::finish) {
            self.say(&message);
        }
        if let (Some(failed), Some(results)) = (failed, self.report.results())
            && let Err(error) = failed.finish(results, is_whole)
        {
            self.say(&format!(
                "the list of the failed tests cannot be written: {error}"
            ));
        }
    }

    /// Writes a message to standard error.
    fn say(&self, message: &str) {
        let message = format!("test-report: {message}");
        self.streams.line.borrow_mut().say(&message);
    }

    /// Takes what became of the tests of the programs that have ended.
    fn take_results(&mut self) {
        for (program, results) in self.report.take_results() {
            let why = self.retries.why_none(results.failed.len());
            if let Some(why) = why.filter(|_| results.is_complete) {
                self.say(&format!("{program}: {why}"));
            }
            let list = self.failed.as_mut();
            for test in list.map_or(Vec::new(), |list| list.take(&program, &results)) {
                self.say(&missing_words(&test, &program));
            }
        }
    }

    /// Takes the tests of which a line of a stand-in says that their program no longer has them.
    fn take_missing(&mut self, missing: &MissingTests) {
        if let Some(failed) = &mut self.failed {
            failed.take_missing(missing);
        }
        for test in &missing.tests {
            self.say(&missing_words(test, &missing.name));
        }
    }

    /// Runs the command, which starts the programs that the file names. Returns how it ended, and the error that it ended
    /// with. `path` is that of the stand-ins.
    fn watch(
        &mut self,
        prepared: &Prepared,
        file: &ProgramsFile,
        path: &str,
    ) -> Result<(CommandEnd, Option<String>), Failure> {
        let mut command = prepared.command();
        command.env(PROGRAMS, file.path());
        let (mut running, output, errors) = match RunningCommand::start_apart(&mut command) {
            Ok(started) => started,
            Err(error) => return Ok((not_started(&error), Some(error.to_string()))),
        };
        self.started = Some(Instant::now());
        let streams = ProcessStreams::start([
            (Stream::Output, Box::new(output)),
            (Stream::Error, Box::new(errors)),
        ]);
        let mut messages = CargoMessages::new(path);
        self.read_streams(streams.map_err(unread)?, &mut running, &mut messages)?;
        let end = self.wait_for(&mut running)?;
        for line in messages.take_last_words(self.report.has_failure()) {
            self.pass_message_on(&line);
        }
        let error = messages.take_error();
        let failed = !matches!(end, CommandEnd::Status { code: 0 });
        Ok((end, error.filter(|_| failed)))
    }

    /// Reads what the command writes. The lines of the stand-ins go to the run, and those of standard error are passed on.
    fn read_streams(
        &mut self,
        mut streams: ProcessStreams,
        running: &mut RunningCommand,
        messages: &mut CargoMessages,
    ) -> Result<(), Failure> {
        let mut error_lines = Lines::default();
        self.read_output(&mut streams, running, |reader, stream, piece| {
            match stream {
                Stream::Output => reader.take_run_piece(piece)?,
                Stream::Error => error_lines.take(piece, |line| {
                    messages.take(line, |line| reader.pass_message_on(line));
                    Ok::<_, Failure>(())
                })?,
            }
            Ok(())
        })?;
        if let Some(line) = self.lines.end() {
            self.take_run_line(&line)?;
        }
        if let Some(line) = error_lines.end() {
            messages.take(&line, |line| self.pass_message_on(line));
        }
        Ok(())
    }

    /// Takes what stand-ins wrote next.
    fn take_run_piece(&mut self, piece: &[u8]) -> Result<(), Failure> {
        self.note_cancel_in_run()?;
        self.streams.others.repeated.note_program();
        let mut lines = mem::take(&mut self.lines);
        lines.take(piece, |line| self.take_run_line(line))?;
        self.lines = lines;
        self.save_now();
        self.note_input();
        Ok(())
    }

    /// Takes a line that stand-ins wrote, without its line feed.
    fn take_run_line(&mut self, line: &[u8]) -> Result<(), Fault> {
        let is_own = is_run_line(line);
        self.streams.others.are_wanted = self.pass_on.of_command() && !is_own;
        if is_own && let Some(missing) = MissingTests::read(line) {
            self.take_missing(&missing);
        }
        self.take_saved_line(line)
    }

    /// Takes a line that this program itself adds to the run. It is for the run alone.
    fn take_own_line(&mut self, line: &[u8]) -> Result<(), Fault> {
        self.streams.others.are_wanted = false;
        self.take_saved_line(line)
    }

    /// Takes a line of the run, without its line feed: all of them come here.
    fn take_saved_line(&mut self, line: &[u8]) -> Result<(), Fault> {
        let streams = &mut *self.streams;
        if let Some(saved) = &mut streams.saved {
            saved.write_line(line);
        }
        if let Some(kept) = &mut self.kept {
            kept.write_line(line);
        }
        self.report
            .on_line(line, &mut streams.output, &mut streams.others)?;
        streams.others.are_wanted = self.pass_on.of_command();
        self.take_results();
        Ok(())
    }

    /// Takes a line of the run that says what became of the command.
    fn take_command_line(&mut self, line: CommandLine) -> Result<(), Failure> {
        let text = RunLine::Command(line).text().map_err(unread)?;
        self.take_own_line(&text)?;
        self.save_now();
        Ok(())
    }

    /// Takes a line that says why the run is cancelled, if a signal has come and the run does not know it.
    fn note_cancel_in_run(&mut self) -> Result<(), Failure> {
        let cancelled = match self.note_cancel() {
            None => return Ok(()),
            Some(CancelReason::Interrupt) => CancelledBy::Interrupt,
            Some(_) => CancelledBy::Signal,
        };
        self.take_command_line(CommandLine::Cancelled { cancelled })
    }

    /// Passes a line of standard error on, except the event in it.
    fn pass_message_on(&mut self, line: &[u8]) {
        // A line that a stand-in turned away is shown as a whole.
        let shown = if is_run_line(line) {
            Some(line.len())
        } else {
            Line::read(line).rest()
        };
        if let Some(size) = shown {
            self.write_on(&[&line[..size], b"\n"].concat());
        }
    }

    /// Writes to the saved file what it does not have yet.
    fn save_now(&mut self) {
        if let Some(saved) = &mut self.streams.saved {
            saved.flush();
        }
        if let Some(kept) = &mut self.kept {
            kept.flush();
        }
    }
}

/// Returns the names of the programs that a command runs: those that cargo has built, and those of documentation tests.
fn names_of(
    stand_in: &StandIn,
    workspace: &Workspace,
    programs: &[TestProgram],
) -> BTreeSet<String> {
    let packages: BTreeSet<_> = programs.iter().map(|program| &program.package).collect();
    // If cargo has not built the programs first, it runs documentation tests alone.
    let is_run = |package: &&String| programs.is_empty() || packages.contains(package);
    let documented = workspace
        .documented
        .iter()
        .filter(|it| stand_in.documents && is_run(it));
    let documented = documented.map(|package| documentation_of(package));
    let names = programs.iter().map(|program| program.name.clone());
    names.chain(documented).collect()
}

/// Returns a time in seconds, in thousandths.
fn in_seconds(time: Duration) -> f64 {
    (time.as_secs_f64() * 1_000.0).round() / 1_000.0
}
