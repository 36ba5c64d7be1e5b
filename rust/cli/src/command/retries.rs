//! Runs the failed tests of a program again, each alone.

use super::end::process_end;
use super::harness::{Tested, missing_options};
use super::held_ends::{HeldEnds, HeldKind, HeldLine};
use super::last_output::LastOutput;
use super::programs::Retries;
use super::run_line::ProcessEnd;
use super::run_streams::RunStreams;
use super::system::Signals;
use super::watching::Watched;
use crate::attempts::joined;
use crate::lines::Lines;
use crate::process_streams::Stream;
use deodarsieve::counted::first_head;
use deodarsieve_run::{Event, Line, TestDetails, TestResult};
use serde_json::value::{RawValue, to_raw_value};
use std::borrow::Cow;
use std::collections::{BTreeMap, BTreeSet};
use std::ffi::{OsStr, OsString};
use std::io::{self, Write};
use std::process::{Command, ExitStatus};

/// The exit status of a harness if a test failed.
const TEST_FAILED: i32 = 101;

/// How failed tests of a program run again.
pub struct Retrying<'a> {
    retries: Retries,
    tested: &'a Tested<'a>,

    /// The arguments of the harness that select no test.
    options: &'a [OsString],

    /// Returns a command for a program.
    prepare: &'a dyn Fn(&OsStr) -> Command,
}

/// What came of running a test again.
enum Attempt {
    /// The harness wrote the end of the test.
    Ended {
        passed: bool,
        line: Vec<u8>,

        /// The number of bytes in the line before its event.
        front: usize,
    },

    /// The program ended in this way, as no harness does after a test. `has_end` is true if it wrote an end of the test.
    Crashed { end: ProcessEnd, has_end: bool },

    /// The program was asked to end, or could not be started.
    Stopped,
}

impl Attempt {
    /// Returns true if the harness wrote that the test passed.
    fn has_passed(&self) -> bool {
        matches!(self, Attempt::Ended { passed: true, .. })
    }
}

/// The members of an event, as they were written.
type Members = BTreeMap<String, Box<RawValue>>;

impl<'a> Retrying<'a> {
    /// Returns how failed tests run again. `options` are the arguments of the harness that select no test, and `prepare`
    /// returns a command for a program.
    pub fn new(
        retries: Retries,
        tested: &'a Tested<'a>,
        options: &'a [OsString],
        prepare: &'a dyn Fn(&OsStr) -> Command,
    ) -> Retrying<'a> {
        Retrying {
            retries,
            tested,
            options,
            prepare,
        }
    }

    /// Returns the ends of tests that are held back while the program runs.
    pub fn held_ends(&self) -> HeldEnds {
        match self.retries.count {
            0 => HeldEnds::new(0),
            _ => HeldEnds::new(self.retries.most),
        }
    }

    /// Runs the failed tests again whose ends were held back, if the program ended as a harness does after failures, and
    /// writes all that was held back. `stderr` is what the program wrote to standard error. Returns how the program would have
    /// ended with the last results.
    ///
    /// Fails if standard output does.
    pub fn finish(
        &self,
        held: HeldEnds,
        status: ExitStatus,
        stderr: &str,
        signals: &Signals,
        streams: &mut RunStreams<impl Write, impl Write>,
    ) -> io::Result<ExitStatus> {
        let retries = held.are_complete() && status.code() == Some(TEST_FAILED);
        let (lines, tests) = held.into_parts();
        let (mut passed, mut all_passed) = (0, retries);
        for HeldLine { line, front, kind } in lines {
            let text = match kind {
                HeldKind::Failed(test) if retries => {
                    let failed = (&line[front..], stderr);
                    let (end, has_passed) = self.retry(&test, &tests, failed, signals, streams)?;
                    passed += u64::from(has_passed);
                    all_passed &= has_passed;
                    [&line[..front], &end].concat()
                }
                HeldKind::SuiteEnded if passed > 0 => {
                    let text = after_retries(&line[front..], passed);
                    passed = 0;
                    [&line[..front], &text].concat()
                }
                HeldKind::Failed(_) | HeldKind::SuiteEnded | HeldKind::Other => line,
            };
            streams.write_line(&text)?;
        }
        // The default is a success.
        Ok(if all_passed {
            ExitStatus::default()
        } else {
            status
        })
    }

    /// Runs a test again until it passes, but not too often. Returns the line of its end, and whether it passed. If it did, or
    /// if the program of its last attempt crashed, the line has the outputs of all attempts. `failed` is the event of its first
    /// end, and what the program wrote to standard error.
    fn retry(
        &self,
        test: &str,
        tests: &BTreeSet<String>,
        (failed, stderr): (&[u8], &str),
        signals: &Signals,
        streams: &mut RunStreams<impl Write, impl Write>,
    ) -> io::Result<(Vec<u8>, bool)> {
        let (mut last, mut outputs) = (failed.to_vec(), vec![output_of(failed, test, stderr)]);
        let mut has_crashed = false;
        for attempt in 2..=self.retries.count.saturating_add(1) {
            if signals.are_end() {
                break;
            }
            let name = format!("{test}#{attempt}");
            let (attempt, stderr) = self.run(test, tests, signals, streams)?;
            match attempt {
                Attempt::Stopped => break,
                Attempt::Crashed { end, has_end } => {
                    last = crash_line(&name, end, has_end, &stderr)?;
                    outputs.push(output_of(&last, test, ""));
                    has_crashed = true;
                }
                Attempt::Ended {
                    passed,
                    line,
                    front,
                } => {
                    let (before, event) = line.split_at(front);
                    if passed {
                        let event = flaky(event, &name, &outputs);
                        return Ok(([before, &event].concat(), true));
                    }
                    outputs.push(output_of(event, test, &stderr));
                    last = [before, &with_texts(event, &[("name", &name)])].concat();
                    has_crashed = false;
                }
            }
        }
        if has_crashed {
            last = with_texts(&last, &[("stdout", &joined(&outputs, None))]);
        }
        Ok((last, false))
    }

    /// Returns the command that runs a test alone.
    fn command(&self, test: &str, tests: &BTreeSet<String>) -> Command {
        let others: Vec<_> = tests
            .iter()
            .map(String::as_str)
            .filter(|it| *it != test)
            .collect();
        let mut harness: Vec<_> = missing_options(self.options).map(OsString::from).collect();
        harness.extend_from_slice(self.options);
        harness.extend(self.tested.selecting_one(test, &others));
        self.tested.command(self.prepare, &harness)
    }

    /// Runs a test again. What the program prints is passed on, and its other events are left out. Returns what came of it, and
    /// what the program wrote to standard error.
    fn run(
        &self,
        test: &str,
        tests: &BTreeSet<String>,
        signals: &Signals,
        streams: &mut RunStreams<impl Write, impl Write>,
    ) -> io::Result<(Attempt, String)> {
        let Ok(mut program) = Watched::start(&mut self.command(test, tests), signals) else {
            return Ok((Attempt::Stopped, String::new()));
        };
        let (mut lines, mut stderr) = (Lines::default(), LastOutput::default());
        let mut said = Said::default();
        program.read(|stream, piece| {
            match stream {
                Stream::Output => lines.take(piece, |line| said.take_line(test, line, streams))?,
                Stream::Error => {
                    streams.write_error(piece);
                    stderr.push(piece);
                }
            }
            streams.flush()
        })?;
        if let Some(line) = lines.end() {
            said.take_line(test, &line, streams)?;
        }
        let end = process_end(program.wait()?);
        let has_end = said.end.is_some();
        let attempt = match (said.end, end) {
            _ if program.was_asked_to_end() || signals.are_end() => Attempt::Stopped,
            (Some(ended), ProcessEnd::Status(0)) if said.has_suite_passed => ended,
            (Some(failed), ProcessEnd::Status(TEST_FAILED)) if !failed.has_passed() => failed,
            _ => Attempt::Crashed { end, has_end },
        };
        Ok((attempt, stderr.into_text()))
    }
}

/// What the lines of a program that runs a test again have said.
#[derive(Default)]
struct Said {
    /// The end of the test: the last one, unless one before it is a failure. After the harness has written the end, the
    /// program can still print a forged one.
    end: Option<Attempt>,

    /// True if a line after that says that a suite passed. There is none if a test ended the program, unless the test
    /// printed it.
    has_suite_passed: bool,
}

impl Said {
    /// Returns true if an end of the test would decide.
    fn takes_end(&self) -> bool {
        self.end.as_ref().is_none_or(Attempt::has_passed)
    }

    /// Takes a line. What is no event is passed on, and so is that the test takes long.
    fn take_line(
        &mut self,
        test: &str,
        line: &[u8],
        streams: &mut RunStreams<impl Write, impl Write>,
    ) -> io::Result<()> {
        if streams.turn_away(line) {
            return Ok(());
        }
        let read = Line::read(line);
        let front = read.rest().unwrap_or(0);
        match read.event() {
            Event::TestEnded { name, result, .. } if name == test && self.takes_end() => {
                self.end = Some(Attempt::Ended {
                    passed: result == TestResult::Ok,
                    line: line.to_vec(),
                    front,
                });
                return Ok(());
            }
            Event::TestSlow { name } if name == test => return streams.write_line(line),
            Event::SuiteEnded(suite) if !suite.failed_verdict => {
                self.has_suite_passed |= self.end.is_some();
            }
            _ => {}
        }
        if front == line.len() {
            return streams.write_line(line);
        }
        // Without the event after it, this could be taken as an event, or as a line of this program.
        let before = &line[..front];
        if front > 0 && !streams.turn_away(before) && Line::read(before).rest() == Some(front) {
            streams.write_line(before)?;
        }
        Ok(())
    }
}

/// Returns the last 64 KiB of what the event of the end of a test says of a failure: its reason, its message and its output. If
/// that was not captured, the panics of the test in `stderr` take its place.
fn output_of(event: &[u8], test: &str, stderr: &str) -> String {
    let (read, mut output) = (Line::read(event), LastOutput::default());
    if let Some(details) = details_of(&read) {
        for words in [details.reason, details.message].into_iter().flatten() {
            output.push(words.trim_end_matches('\n').as_bytes());
            output.push(b"\n");
        }
        let stdout = details.stdout.map(Cow::from);
        let stdout = stdout.unwrap_or_else(|| panics_of(test, stderr).into());
        output.push(stdout.as_bytes());
    }
    output.into_text()
}

/// Returns the panics of a test in what its program wrote to standard error: its thread has its name. A panic ends before
/// that of another thread.
fn panics_of(test: &str, stderr: &str) -> String {
    let mut is_own = false;
    let lines = stderr.split_inclusive('\n').filter(|line| {
        if first_head(line.as_bytes()).is_some_and(|head| head.start == 0) {
            is_own = line.split('\'').nth(1) == Some(test);
        }
        is_own
    });
    lines.collect()
}

/// Returns the event of a test that passed, with another name, and with the outputs of the attempts before, which failed.
fn flaky(event: &[u8], name: &str, failed: &[String]) -> Vec<u8> {
    let read = Line::read(event);
    let passed = details_of(&read).and_then(|details| details.stdout);
    with_texts(
        event,
        &[("name", name), ("stdout", &joined(failed, passed))],
    )
}

/// Returns what a line says of a test that ends, if it is the line of its end.
fn details_of<'a>(line: &'a Line) -> Option<TestDetails<'a>> {
    let Event::TestEnded { details, .. } = line.event() else {
        return None;
    };
    Some(details)
}

/// Returns an event with texts as members in place of those that it has of these names.
fn with_texts(event: &[u8], texts: &[(&str, &str)]) -> Vec<u8> {
    let changed = || {
        let mut members: Members = serde_json::from_slice(event).ok()?;
        for (name, text) in texts {
            members.insert((*name).into(), to_raw_value(text).ok()?);
        }
        event_of(members)
    };
    changed().unwrap_or_else(|| event.to_vec())
}

/// Returns the last line of a suite, given how many of its failed tests have passed since.
fn after_retries(event: &[u8], count: u64) -> Vec<u8> {
    let changed = || {
        let mut members: Members = serde_json::from_slice(event).ok()?;
        let number = |members: &Members, name: &str| -> Option<u64> {
            serde_json::from_str(members.get(name)?.get()).ok()
        };
        let failed = number(&members, "failed")?.saturating_sub(count);
        let passed = number(&members, "passed")?.saturating_add(count);
        members.insert("failed".into(), to_raw_value(&failed).ok()?);
        members.insert("passed".into(), to_raw_value(&passed).ok()?);
        if failed == 0 {
            members.insert("event".into(), to_raw_value("ok").ok()?);
        }
        event_of(members)
    };
    changed().unwrap_or_else(|| event.to_vec())
}

/// Returns the text of an event. Its type is first, by which a reader finds an event after other text.
fn event_of(mut members: Members) -> Option<Vec<u8>> {
    let kind = members.remove("type")?;
    let mut text = format!("{{\"type\":{kind}");
    for (name, value) in members {
        text.push_str(&format!(",{}:{value}", to_raw_value(&name).ok()?));
    }
    text.push('}');
    Some(text.into_bytes())
}

/// Returns the line of a test whose program ended in this way. `has_end` is true if the program wrote an end of the test.
fn crash_line(name: &str, end: ProcessEnd, has_end: bool, stderr: &str) -> io::Result<Vec<u8>> {
    let how = match end {
        ProcessEnd::Status(status) => format!("with status {status}"),
        ProcessEnd::Signal(signal) => format!("by signal {signal}"),
    };
    let when = if has_end {
        "after a line that says how the test did"
    } else {
        "and no line says how the test did"
    };
    Ok(serde_json::to_vec(&serde_json::json!({
        "type": "test", "event": "failed", "name": name, "stdout": stderr,
        "message": format!("its program ended {how} {when}"),
    }))?)
}

#[cfg(test)]
mod tests {
    use super::*;

    #[test]
    fn an_event_gets_another_name_and_keeps_its_other_members() {
        let event = br#"{ "name": "a", "type": "test", "exec_time": 0.10, "stdout": "\u00e9\n", "event": "ok" }"#;
        let wanted = r##"{"type":"test","event":"ok","exec_time":0.10,"name":"a \"b\"#2","stdout":"\u00e9\n"}"##;
        assert_eq!(
            String::from_utf8(with_texts(event, &[("name", "a \"b\"#2")])).as_deref(),
            Ok(wanted)
        );
        assert_eq!(with_texts(b"{", &[("name", "a")]), b"{");
    }

    #[test]
    fn a_flaky_test_has_the_outputs_of_its_attempts() {
        let failed = [
            r#"{"type":"test","event":"failed","name":"a","reason":"time limit exceeded","stdout":"x"}"#,
            r#"{"type":"test","event":"failed","name":"a","message":"test did not panic as expected\n","stdout":""}"#,
            r#"{"type":"test","event":"failed","name":"a"}"#,
        ];
        let outputs = failed.map(|event| output_of(event.as_bytes(), "a", ""));
        let wanted = [
            "time limit exceeded\nx",
            "test did not panic as expected\n",
            "",
        ];
        assert_eq!(outputs, wanted);
        let stdout = |passed: &str| {
            let event = flaky(passed.as_bytes(), "a#4", &outputs);
            let read = Line::read(&event);
            let Event::TestEnded {
                name: "a#4",
                result: TestResult::Ok,
                details,
            } = read.event()
            else {
                panic!("{event:?}");
            };
            details.stdout.expect("it has one").to_string()
        };
        let passed = r#"{ "type": "test", "name": "a", "event": "ok" }"#;
        assert_eq!(stdout(passed), joined(&outputs, None));
        let passed = r#"{ "type": "test", "name": "a", "event": "ok", "stdout": "done" }"#;
        assert_eq!(stdout(passed), joined(&outputs, Some("done")));
    }

    #[test]
    fn an_attempt_without_output_has_its_panics() {
        let stderr = "a line\n\nthread 'b' (7) panicked at b.rs:1:2:\nb\n\
                      thread 'a' (8) panicked at a.rs:1:2:\nlost\nnote: more\nthread 'a2' panicked at a.rs:3:4:\nother\n\
                      thread 'a' panicked at a.rs:5:6:\nagain\n";
        let panics = "thread 'a' (8) panicked at a.rs:1:2:\nlost\nnote: more\nthread 'a' panicked at a.rs:5:6:\nagain\n";
        let event = r#"{"type":"test","event":"failed","name":"a"}"#;
        assert_eq!(output_of(event.as_bytes(), "a", stderr), panics);
        assert_eq!(output_of(event.as_bytes(), "c", stderr), "");
        let event = r#"{"type":"test","event":"failed","name":"a","stdout":"x"}"#;
        assert_eq!(output_of(event.as_bytes(), "a", stderr), "x");
    }

    #[test]
    fn not_all_is_kept_of_a_long_output() {
        let long = format!("first\n{}last\n", "x\n".repeat(1 << 16));
        let event =
            serde_json::json!({"type": "test", "event": "failed", "name": "a", "stdout": long});
        let kept = output_of(event.to_string().as_bytes(), "a", "");
        assert!(kept.len() <= 1 << 16 && kept.ends_with("x\nlast\n"));
    }

    #[test]
    fn the_last_line_of_a_suite_has_the_numbers_after_retries() {
        let event = br#"{ "type": "suite", "event": "failed", "passed": 1, "failed": 2, "exec_time": 1.50 }"#;
        let text = |count| String::from_utf8(after_retries(event, count)).expect("it is UTF-8");
        assert_eq!(
            text(1),
            r#"{"type":"suite","event":"failed","exec_time":1.50,"failed":1,"passed":2}"#
        );
        assert_eq!(
            text(2),
            r#"{"type":"suite","event":"ok","exec_time":1.50,"failed":0,"passed":3}"#
        );
    }

    #[test]
    fn it_is_passed_on_that_a_test_takes_long() {
        let slow = br#"{ "type": "test", "event": "timeout", "name": "a" }"#;
        for (test, wanted) in [("a", [&slow[..], b"\n"].concat()), ("b", Vec::new())] {
            let mut output = Vec::new();
            let mut streams = RunStreams::new(&mut output, io::sink());
            let mut said = Said::default();
            let taken = said.take_line(test, slow, &mut streams);
            assert!(taken.is_ok() && said.end.is_none());
            assert_eq!(output, wanted);
        }
    }

    #[test]
    fn what_is_before_an_event_is_no_event_and_no_line_of_this_program() {
        let own = r#"{"type":"program","event":"ended","status":0}"#;
        let event = r#"{"type":"test","event":"started","name":"b"}"#;
        let (mut output, mut errors) = (Vec::new(), Vec::new());
        let mut streams = RunStreams::new(&mut output, &mut errors);
        for front in [own, event, "text"] {
            let line = format!("{front}{event}");
            let mut said = Said::default();
            let taken = said.take_line("a", line.as_bytes(), &mut streams);
            assert!(taken.is_ok() && said.end.is_none());
        }
        assert_eq!(output, b"text\n");
        assert_eq!(errors, format!("{own}\n").as_bytes());
    }

    #[test]
    fn an_attempt_passes_only_if_each_end_says_so() {
        let line = |event| format!(r#"{{ "type": "test", "event": "{event}", "name": "a" }}"#);
        for (first, second) in [("failed", "ok"), ("ok", "failed"), ("ok", "ignored")] {
            let mut streams = RunStreams::new(io::sink(), io::sink());
            let mut said = Said::default();
            for event in [first, second] {
                let taken = said.take_line("a", line(event).as_bytes(), &mut streams);
                taken.expect("nothing fails");
            }
            let end = said.end.expect("the test has an end");
            assert!(!end.has_passed(), "{first} {second}");
        }
    }

    #[test]
    fn a_crash_says_how_the_program_ended() {
        let line = crash_line("a#2", ProcessEnd::Signal(6), false, "x\n").expect("it is JSON");
        let read = Line::read(&line);
        let Event::TestEnded {
            name,
            result,
            details,
        } = read.event()
        else {
            panic!("{line:?}");
        };
        assert_eq!((name, result), ("a#2", TestResult::Failed));
        assert_eq!(details.stdout, Some("x\n"));
        let wanted = "its program ended by signal 6 and no line says how the test did";
        assert_eq!(details.message, Some(wanted));
        assert!(
            Line::read(&crash_line("a", ProcessEnd::Status(3), false, "").expect("it is JSON"))
                .rest()
                .is_none()
        );
    }
}
