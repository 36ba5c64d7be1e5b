//! A command that runs, while the program reads what it writes.

use super::system::{Orphans, terminate};
use crate::program::{DEVICE_FAILED, Failure};
use std::io::{self, PipeReader, pipe};
use std::process::{Child, Command, ExitStatus, Stdio};
use std::thread;
use std::time::{Duration, Instant};

/// How long a command that was asked to end is waited for.
const QUIET: Duration = Duration::from_secs(2);

/// The time between two looks at a command that was asked to end.
const SHORT_LOOK: Duration = Duration::from_millis(5);

/// How long a command and what it leaves behind have to end after SIGTERM, if both are to end. Then they are killed.
pub const PATIENCE: Duration = Duration::from_secs(10);

/// A command that runs or has ended. If it is dropped while the command runs, the command is asked to end, and has two
/// seconds to do so. So has what the command leaves behind, if that is to end, too.
#[derive(Debug)]
pub struct RunningCommand {
    child: Child,
    status: Option<ExitStatus>,

    /// True if the command was asked to end.
    is_asked: bool,

    /// Set if the command is to end with what it leaves behind.
    ending: Option<Ending>,
}

/// The end of a command and of what it leaves behind.
#[derive(Debug)]
struct Ending {
    since: Instant,
    orphans: Orphans,
}

impl RunningCommand {
    /// Starts a command. Returns it and what it writes to standard output and standard error, in one pipe, so that the
    /// order stays. Its standard input, folder and variables are those of this program, unless `command` has others.
    ///
    /// Fails if the command cannot be started.
    pub fn start(mut command: Command) -> io::Result<(RunningCommand, PipeReader)> {
        let (output, writer) = pipe()?;
        command.stdout(writer.try_clone()?).stderr(writer);
        // The command is dropped, and with it the ends of the pipe that this program would have.
        Ok((RunningCommand::start_alone(&mut command)?, output))
    }

    /// Starts a command. Returns it, what it writes to standard output, and what it writes to standard error.
    ///
    /// Fails if the command cannot be started.
    pub fn start_apart(
        command: &mut Command,
    ) -> io::Result<(RunningCommand, PipeReader, PipeReader)> {
        let (output, output_writer) = pipe()?;
        let (errors, errors_writer) = pipe()?;
        command.stdout(output_writer).stderr(errors_writer);
        let running = RunningCommand::start_alone(command)?;
        // The command would hold its ends of the pipes open.
        command.stdout(Stdio::null()).stderr(Stdio::null());
        Ok((running, output, errors))
    }

    /// Starts a command with the standard streams that it names, or else with those of this program.
    ///
    /// Fails if the command cannot be started.
    pub fn start_alone(command: &mut Command) -> io::Result<RunningCommand> {
        Ok(RunningCommand {
            child: command.spawn()?,
            status: None,
            is_asked: false,
            ending: None,
        })
    }

    /// Returns the status with which the command ended, or `None` if it runs.
    ///
    /// Fails if the system does not say.
    pub fn status(&mut self) -> io::Result<Option<ExitStatus>> {
        if self.status.is_none() {
            self.status = self.child.try_wait()?;
        }
        Ok(self.status)
    }

    /// Asks the command to end, by SIGTERM, unless it has ended. Other systems end it.
    pub fn terminate(&mut self) {
        // A command that has been waited for has no number any more, and another process may have it.
        if matches!(self.status(), Ok(None)) {
            self.is_asked = true;
            terminate(&mut self.child);
        }
    }

    /// Asks the command to end, unless it was asked. From now on, on Linux, what it leaves behind is to end, too: see
    /// [`RunningCommand::end_all`].
    pub fn terminate_all(&mut self) {
        self.ending.get_or_insert_with(|| Ending {
            since: Instant::now(),
            orphans: Orphans::adopt(),
        });
        if !self.is_asked {
            self.terminate();
        }
    }

    /// If the command is to end with what it leaves behind, asks what it has left behind since then to end, and kills all
    /// that runs ten seconds after the command was asked. Returns false if something runs that it has left behind.
    pub fn end_all(&mut self) -> bool {
        let Some(ending) = &mut self.ending else {
            return true;
        };
        let kills = ending.since.elapsed() >= PATIENCE;
        if kills {
            // If that fails, it has ended.
            let _ = self.child.kill();
        }
        ending.orphans.end(kills)
    }
}

impl Drop for RunningCommand {
    fn drop(&mut self) {
        self.terminate();
        let start = Instant::now();
        while (matches!(self.status(), Ok(None)) || !self.end_all()) && start.elapsed() < QUIET {
            thread::sleep(SHORT_LOOK);
        }
    }
}

/// Returns the failure to learn whether a command has ended.
pub fn not_waited(error: io::Error) -> Failure {
    Failure::new(DEVICE_FAILED, "the command cannot be waited for").caused_by(Some(error))
}

#[cfg(all(test, unix))]
mod tests {
    use super::*;
    use std::io::{BufRead, BufReader, Read};
    use std::os::unix::process::ExitStatusExt;

    /// How long a command may take to end.
    const LONGEST: Duration = Duration::from_secs(60);

    /// Starts a script of the shell.
    fn start(script: &str) -> (RunningCommand, PipeReader) {
        let mut command = Command::new("sh");
        command.args(["-c", script]);
        RunningCommand::start(command).expect("a shell starts")
    }

    /// Returns the status with which a command ends.
    fn status_of(running: &mut RunningCommand) -> ExitStatus {
        let start = Instant::now();
        while start.elapsed() < LONGEST {
            if let Some(status) = running.status().expect("the command is a child") {
                return status;
            }
            thread::sleep(SHORT_LOOK);
        }
        panic!("the command does not end");
    }

    #[test]
    fn both_streams_come_in_their_order() {
        let (mut running, mut output) = start("echo a; echo b >&2; echo c; exit 7");
        let mut text = String::new();
        output.read_to_string(&mut text).expect("the pipe ends");
        assert_eq!(text, "a\nb\nc\n");
        assert_eq!(status_of(&mut running).code(), Some(7));
    }

    #[test]
    fn the_streams_of_a_command_can_be_read_apart() {
        let mut command = Command::new("sh");
        command.args(["-c", "echo a; echo b >&2; echo c"]);
        let (mut running, output, errors) =
            RunningCommand::start_apart(&mut command).expect("a shell starts");
        let text = |reader| io::read_to_string(reader).expect("the pipe ends");
        assert_eq!([text(output), text(errors)], ["a\nc\n", "b\n"]);
        assert_eq!(status_of(&mut running).code(), Some(0));
    }

    #[test]
    fn a_command_that_runs_is_asked_to_end() {
        let (mut running, _output) = start("exec sleep 100");
        assert_eq!(running.status().expect("the command is a child"), None);
        running.terminate();
        assert_eq!(status_of(&mut running).signal(), Some(15));
        running.terminate();
    }

    /// Starts a script, and returns when it has written a line.
    fn start_and_read(script: &str) -> (RunningCommand, BufReader<PipeReader>) {
        let (running, output) = start(script);
        let mut output = BufReader::new(output);
        let mut line = String::new();
        output.read_line(&mut line).expect("the command writes");
        assert_eq!(line, "a\n");
        (running, output)
    }

    #[test]
    fn a_command_that_is_dropped_is_asked_to_end_and_waited_for() {
        let script = "trap 'sleep 1; echo ended; exit' TERM; echo a; sleep 20 & wait";
        let (running, mut output) = start_and_read(script);
        let start = Instant::now();
        drop(running);
        assert!(start.elapsed() >= QUIET / 2);
        let mut line = String::new();
        output.read_line(&mut line).expect("the command writes");
        assert_eq!(line, "ended\n");
    }

    #[test]
    fn a_command_that_does_not_end_is_left_alone() {
        let (running, _output) = start_and_read("trap '' TERM; echo a; exec sleep 10");
        let start = Instant::now();
        drop(running);
        assert!(start.elapsed() >= QUIET && start.elapsed() < 4 * QUIET);
    }

    #[test]
    fn a_command_that_is_not_there_cannot_be_started() {
        let error = RunningCommand::start(Command::new("/no/such/program"))
            .expect_err("there is no such program");
        assert_eq!(error.kind(), io::ErrorKind::NotFound);
    }
}
