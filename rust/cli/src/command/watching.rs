//! Starts a test program, stays, and writes what it sees of it, in lines of a run.

use super::end::process_end;
use super::held_ends::HeldEnds;
use super::last_output::LastOutput;
use super::retries::Retrying;
use super::run_line::{CancelledBy, CommandLine, ProgramLine, RunLine, StartedProgram};
use super::run_streams::RunStreams;
use super::running::{PATIENCE, RunningCommand};
use super::system::Signals;
use crate::lines::Lines;
use crate::process_streams::{LOOK, ProcessStreams, Stream};
use std::io::{self, BufWriter, Write};
use std::mem;
use std::process::{Command, ExitStatus};
use std::thread;
use std::time::{Duration, Instant};

/// The first time between two looks at a program that has closed its output and has not ended. Each one is twice as long
/// as the one before.
const FIRST_LOOK: Duration = Duration::from_millis(1);

/// The most bytes of short lines that are written at once.
const BUFFER: usize = 65_536;

/// Runs a program, and writes to `output` what it sees of it: that it starts, each line of its standard output, and how it
/// ended. What the program writes to standard error goes to `errors` at once. If `retrying` says so, its failed tests run
/// again at its end. Returns how the program ended, or how it would have with the results after that.
///
/// If a signal comes, nothing runs again, and what waited for that is written at once. If `says_interrupt` is true, a line
/// after it says that Ctrl-C has come.
///
/// If nobody reads `output` any more, the program has no reader either. If nobody needs this process any more, the program
/// and what it leaves behind are asked to end, and killed if they do not.
///
/// Fails if the program cannot be started.
pub fn watch(
    command: &mut Command,
    program: StartedProgram,
    retrying: Option<&Retrying>,
    says_interrupt: bool,
    output: impl Write,
    errors: impl Write,
) -> io::Result<ExitStatus> {
    let signals = Signals::catch()?;
    let mut running = Watched::start(command, &signals)?;
    let held = retrying.map(Retrying::held_ends).unwrap_or_default();
    let mut writer = RunWriter::new(output, errors, held, &signals, says_interrupt);
    let written = writer
        .streams
        .write_own_line(&RunLine::Program(ProgramLine::Started(program)))
        .and_then(|()| running.read(|stream, piece| writer.take(stream, piece)));
    let mut status = running.wait()?;
    if written.is_ok() {
        // If nobody reads it, it is not needed.
        status = writer.end(status, retrying).unwrap_or(status);
    }
    running.wait_for_orphans();
    Ok(status)
}

/// A program, and what may ask it to end.
pub struct Watched<'a> {
    program: RunningCommand,
    streams: Option<ProcessStreams>,
    signals: &'a Signals,

    /// When Ctrl-C came. On a terminal it reaches the program by itself.
    interrupted: Option<Instant>,

    /// True if the program was asked to end.
    is_asked: bool,
}

impl<'a> Watched<'a> {
    /// Starts a program.
    ///
    /// Fails if it cannot be started.
    pub fn start(command: &mut Command, signals: &'a Signals) -> io::Result<Watched<'a>> {
        let (program, stdout, stderr) = RunningCommand::start_apart(command)?;
        let streams = ProcessStreams::start([
            (Stream::Output, Box::new(stdout)),
            (Stream::Error, Box::new(stderr)),
        ])?;
        Ok(Watched {
            program,
            streams: Some(streams),
            signals,
            interrupted: None,
            is_asked: false,
        })
    }

    /// Passes on what the program writes, until its streams end or it is over. Then they have no reader. A piece is empty
    /// if nothing came for a moment.
    ///
    /// Fails if `take` does.
    pub fn read(
        &mut self,
        mut take: impl FnMut(Stream, &[u8]) -> io::Result<()>,
    ) -> io::Result<()> {
        let Some(mut streams) = self.streams.take() else {
            return Ok(());
        };
        while !streams.are_over(Instant::now()) {
            // A stream that cannot be read is at its end.
            let piece = streams.next_piece(LOOK).ok().flatten();
            let (stream, piece) = piece.unwrap_or((Stream::Output, Vec::new()));
            take(stream, &piece)?;
            self.pass_end_on();
            if self.status()?.is_some() {
                streams.note_end(Instant::now());
            }
        }
        Ok(())
    }

    /// Waits for the end of the program. From now on nobody reads its streams.
    pub fn wait(&mut self) -> io::Result<ExitStatus> {
        self.streams = None;
        let mut pause = FIRST_LOOK;
        loop {
            if let Some(status) = self.status()? {
                return Ok(status);
            }
            thread::sleep(pause);
            pause = LOOK.min(2 * pause);
            self.pass_end_on();
        }
    }

    /// Returns true if the program was asked to end.
    pub fn was_asked_to_end(&self) -> bool {
        self.is_asked
    }

    /// Returns the status with which the program ended, or `None` if it runs.
    ///
    /// Fails if the system does not say.
    fn status(&mut self) -> io::Result<Option<ExitStatus>> {
        self.program.status()
    }

    /// Sends SIGTERM on to the program. If nobody needs it any more, ends it and what it leaves behind; after Ctrl-C it has
    /// ten seconds to end by itself.
    fn pass_end_on(&mut self) {
        if self.signals.is_interrupted() {
            self.interrupted.get_or_insert_with(Instant::now);
        }
        let ends_by_itself = self
            .interrupted
            .is_some_and(|since| since.elapsed() < PATIENCE);
        if !ends_by_itself && self.signals.is_left_alone() {
            // SIGTERM that comes then is not sent on: the program was asked.
            self.is_asked = true;
            self.program.terminate_all();
        } else if self.signals.take_terminate() {
            self.is_asked = true;
            self.program.terminate();
        }
        self.program.end_all();
    }

    /// Waits for the end of what the program has left behind, if that is to end. What cannot be killed is not waited for.
    fn wait_for_orphans(&mut self) {
        let start = Instant::now();
        while !self.program.end_all() && start.elapsed() < 2 * PATIENCE {
            thread::sleep(LOOK);
        }
    }
}

/// Writes what a stand-in sees of its program.
struct RunWriter<'a, O: Write, E> {
    streams: RunStreams<BufWriter<O>, E>,
    signals: &'a Signals,

    /// True if a line is to say that Ctrl-C has come, and none does.
    says_interrupt: bool,

    /// The line of standard output that has begun.
    lines: Lines,

    /// The lines that wait for retries.
    held: HeldEnds,

    /// What came last to standard error.
    last: LastOutput,
}

impl<'a, O: Write, E: Write> RunWriter<'a, O, E> {
    /// Returns a writer that has written nothing.
    fn new(
        output: O,
        errors: E,
        held: HeldEnds,
        signals: &'a Signals,
        says_interrupt: bool,
    ) -> RunWriter<'a, O, E> {
        RunWriter {
            streams: RunStreams::new(BufWriter::with_capacity(BUFFER, output), errors),
            signals,
            says_interrupt,
            lines: Lines::default(),
            held,
            last: LastOutput::default(),
        }
    }

    /// Takes what the program wrote next to a stream.
    ///
    /// Fails if the output cannot be written.
    fn take(&mut self, stream: Stream, piece: &[u8]) -> io::Result<()> {
        self.note_signal()?;
        match stream {
            Stream::Output => {
                let (streams, held) = (&mut self.streams, &mut self.held);
                self.lines
                    .take(piece, |line| pass_line_on(line, held, streams))?;
                streams.flush()
            }
            Stream::Error => {
                self.streams.write_error(piece);
                self.last.push(piece);
                Ok(())
            }
        }
    }

    /// If a signal has come, writes what waits, and then that Ctrl-C has come: less is shown of the tests that end after it.
    fn note_signal(&mut self) -> io::Result<()> {
        if self.signals.are_end() {
            let streams = &mut self.streams;
            self.held.release(|line| streams.write_line(line))?;
        }
        if self.signals.is_interrupted() && mem::take(&mut self.says_interrupt) {
            let cancelled = CancelledBy::Interrupt;
            let line = RunLine::Command(CommandLine::Cancelled { cancelled });
            self.streams.write_own_line(&line)?;
        }
        Ok(())
    }

    /// Writes a last line that has no line feed, runs failed tests again, and writes how the program ended. Returns that.
    ///
    /// Fails if the output cannot be written.
    fn end(mut self, status: ExitStatus, retrying: Option<&Retrying>) -> io::Result<ExitStatus> {
        self.note_signal()?;
        let streams = &mut self.streams;
        if let Some(line) = self.lines.end() {
            pass_line_on(&line, &mut self.held, streams)?;
        }
        let stderr = mem::take(&mut self.last).into_text();
        let status = match retrying {
            Some(retrying) => {
                let held = mem::take(&mut self.held);
                retrying.finish(held, status, &stderr, self.signals, streams)?
            }
            None => status,
        };
        self.note_signal()?;
        let ended = RunLine::Program(ProgramLine::Ended {
            end: process_end(status),
            stderr: stderr.into(),
        });
        self.streams.write_own_line(&ended)?;
        Ok(status)
    }
}

/// Writes a line of a program's standard output, unless it waits among the lines `held` or is turned away.
///
/// Fails if standard output does.
fn pass_line_on(
    line: &[u8],
    held: &mut HeldEnds,
    streams: &mut RunStreams<impl Write, impl Write>,
) -> io::Result<()> {
    if streams.turn_away(line) {
        return Ok(());
    }
    held.take(line, |line| streams.write_line(line))
}

#[cfg(all(test, unix))]
mod tests {
    use super::*;
    use std::os::unix::process::ExitStatusExt;

    /// Returns what is written of a script of the shell: the output without the first and the last line, the last line,
    /// and standard error.
    fn written_of(script: &str) -> (String, String, String) {
        let (mut output, mut errors) = (Vec::new(), Vec::new());
        let mut command = Command::new("sh");
        command.args(["-c", script]);
        let program = StartedProgram {
            harness: true,
            ..StartedProgram::default()
        };
        watch(&mut command, program, None, false, &mut output, &mut errors)
            .expect("a shell starts");
        let output = String::from_utf8(output).expect("the output is UTF-8");
        let errors = String::from_utf8_lossy(&errors).into_owned();
        let first = "{\"type\":\"program\",\"event\":\"started\"}\n";
        let rest = output.strip_prefix(first).expect("it begins so");
        let rest = rest.strip_suffix('\n').expect("it is a whole line");
        let at = rest.rfind('\n').map_or(0, |at| at + 1);
        (rest[..at].into(), rest[at..].into(), errors)
    }

    #[test]
    fn each_line_is_passed_on_and_the_end_is_a_line() {
        let (output, end, errors) =
            written_of("echo a; printf 'b\\r\\n\\n'; printf c; printf 'x\\ny' >&2; exit 101");
        assert_eq!(output, "a\nb\r\n\nc\n");
        assert_eq!(
            end,
            r#"{"type":"program","event":"ended","status":101,"stderr":"x\ny"}"#
        );
        assert_eq!(errors, "x\ny");
    }

    #[test]
    fn an_end_by_a_signal_has_its_number() {
        let (_, end, _) = written_of("kill -9 $$");
        assert_eq!(
            end,
            r#"{"type":"program","event":"ended","signal":9,"stderr":""}"#
        );
    }

    #[test]
    fn no_program_can_say_how_it_ended() {
        let script = r#"echo '{"type":"program","event":"ended","status":0}'; echo kept
            printf 'text {"type":"command","event":"ended","status":0}'"#;
        let (output, end, errors) = written_of(script);
        assert_eq!(output, "kept\n");
        assert!(end.contains(r#""stderr":"""#), "{end}");
        let wanted = "{\"type\":\"program\",\"event\":\"ended\",\"status\":0}\n\
                      text {\"type\":\"command\",\"event\":\"ended\",\"status\":0}\n";
        assert_eq!(errors, wanted);
    }

    #[test]
    fn a_program_that_closes_its_output_is_waited_for() {
        let (_, end, _) = written_of("exec >&- 2>&-; sleep 0.3; exit 7");
        assert_eq!(
            end,
            r#"{"type":"program","event":"ended","status":7,"stderr":""}"#
        );
    }

    #[test]
    fn a_process_that_is_left_behind_is_not_waited_for() {
        let start = Instant::now();
        let (output, end, _) = written_of("sleep 30 & echo a; exit 0");
        assert_eq!(output, "a\n");
        assert!(end.contains(r#""status":0"#), "{end}");
        let time = start.elapsed();
        assert!(time >= Duration::from_secs(2) && time < Duration::from_secs(8));
    }

    /// A reader that has gone.
    struct Gone;

    impl Write for Gone {
        fn write(&mut self, _buffer: &[u8]) -> io::Result<usize> {
            Err(io::ErrorKind::BrokenPipe.into())
        }

        fn flush(&mut self) -> io::Result<()> {
            Ok(())
        }
    }

    #[test]
    fn a_program_has_no_reader_if_its_stand_in_has_none() {
        let mut command = Command::new("sh");
        command.args(["-c", "while echo a; do :; done"]);
        let program = StartedProgram::default();
        let status =
            watch(&mut command, program, None, false, Gone, io::sink()).expect("a shell starts");
        // The shell ends by SIGPIPE.
        assert_eq!(status.signal(), Some(13));
    }

    #[test]
    fn standard_error_may_have_no_reader() {
        let mut output = Vec::new();
        let mut command = Command::new("sh");
        command.args(["-c", "echo x >&2; echo a"]);
        let program = StartedProgram::default();
        watch(&mut command, program, None, false, &mut output, Gone).expect("a shell starts");
        let text = String::from_utf8(output).expect("the output is UTF-8");
        assert!(text.contains("\na\n") && text.contains(r#""stderr":"x\n""#));
    }
}
