//! What is known of a run: its notes, by the package `deodarsieve-run`, and how the page on `test-report` says that
//! names, times and contradictions are shown.

use crate::properties::SLOW;
use deodarsieve::{CancelReason, RunOutcome};
use deodarsieve_run::{
    CommandEnd, Contradiction, Event, Failure, FailureKind, Line, Note, ProgramEnd, ProgramFault,
    ProgramLine, ProgramRun, RunEnd, SaidNumbers, TestNote, TestOutcome, TestResult, TestRun,
};
use std::collections::{BTreeMap, BTreeSet};
use std::rc::Rc;

/// The notes of a run, in the order in which a report shows them, and its end.
pub struct Facts {
    pub notes: Vec<Note>,
    pub end: RunEnd,

    /// What of the lines is no event. A line feed follows each.
    pub others: Vec<u8>,

    /// Why the run is cancelled, as its lines say.
    cancelled: Option<CancelReason>,

    /// The programs with their own harness that wrote no event of a test, each with the number of notes before its end.
    pub without_report: Vec<(usize, String)>,

    /// What may have the panics of failed tests without an output, by the places of their notes: what their programs wrote
    /// to standard error or, without lines of programs, the prints since they started.
    texts: BTreeMap<usize, String>,
}

/// The prints of a file without lines of programs, since a test runs.
#[derive(Default)]
struct Prints {
    text: String,

    /// How many bytes of the text came before the last start of each test.
    starts: BTreeMap<String, usize>,
}

/// What lines of programs say that notes do not have.
#[derive(Default)]
struct Programs {
    /// The program with its own harness that runs.
    program: Option<String>,
    cancelled: Option<CancelReason>,

    /// The exit status of the command in the file.
    status: Option<i64>,

    /// True if a program runs.
    runs: bool,

    /// The failed tests without an output of this program, and its suites that were over after one of them.
    held: Vec<Note>,
}

/// The tests and problems of a suite, and its own note if the suite is over. Its notes share the name, and no other
/// suite does.
pub struct Suite<'a> {
    pub name: Option<&'a Rc<String>>,
    pub notes: Vec<&'a Note>,
    pub over: Option<&'a Note>,
}

/// Returns true if a note says that tests were not run, or that something did not end because the run was cancelled.
fn is_cut_short(note: &Note) -> bool {
    match note {
        Note::NotRun(_) | Note::Contradiction(Contradiction::Cancelled(_)) => true,
        Note::Suite(suite) => suite.not_run > 0,
        Note::Test(_) | Note::Flaky(_) | Note::Contradiction(_) => false,
    }
}

/// Returns the lines of a file. What follows the last line feed is a line unless it is empty.
pub fn lines_of(file: &[u8]) -> impl Iterator<Item = &[u8]> {
    let lines = file.split_inclusive(|byte| *byte == b'\n');
    lines.map(|line| line.strip_suffix(b"\n").unwrap_or(line))
}

impl Facts {
    /// Returns what is known of the run of some files.
    pub fn of(files: &[Vec<u8>]) -> Facts {
        let mut run = ProgramRun::new(TestRun::new(SLOW));
        let (mut notes, mut others) = (Vec::new(), Vec::new());
        let (mut programs, mut without_report) = (Programs::default(), Vec::new());
        let mut texts = BTreeMap::new();
        for (place, file) in files.iter().enumerate() {
            if place > 0 {
                without_report.extend(Some(notes.len()).zip(programs.program.take()));
                let known = run.end_file().expect("the numbers fit");
                notes.extend(programs.with_status(known));
            }
            let first = lines_of(file).next().map(Line::read);
            let has_programs = first.is_some_and(|line| line.program().is_some());
            let mut prints = Prints::default();
            for bytes in lines_of(file) {
                let line = Line::read(bytes);
                if let Some(size) = line.rest() {
                    others.extend_from_slice(&bytes[..size]);
                    others.push(b'\n');
                }
                if has_programs {
                    without_report.extend(Some(notes.len()).zip(programs.on_line(&line)));
                    release(&mut programs, line.program(), &mut notes, &mut texts);
                } else if run.run().first_running().is_some() {
                    prints.add(&line, bytes);
                } else {
                    prints = Prints::default();
                }
                if let Event::TestStarted { name } = line.event() {
                    prints.starts.insert(name.to_string(), prints.text.len());
                }
                let mut known = run.on_line(&line).expect("the numbers fit");
                // Tests that were not run come after what the rest of the line says.
                known.sort_by_key(|note| matches!(note, Note::NotRun(_) | Note::Suite(_)));
                for note in known.into_iter().filter_map(|note| programs.shown(note)) {
                    if let Some(test) = test_of(&note).filter(|_| !has_programs) {
                        texts.insert(notes.len(), prints.since_start(&test.name).to_string());
                        if failure_of(test).is_some_and(|failure| failure.stdout.is_none()) {
                            prints.starts.insert(test.name.clone(), prints.text.len());
                        }
                    }
                    notes.push(note);
                }
            }
            programs.runs = false;
            release(&mut programs, None, &mut notes, &mut texts);
        }
        let finished = run.finish(None, false).expect("the numbers fit");
        without_report.extend(Some(notes.len()).zip(programs.program.take()));
        notes.extend(programs.with_status(finished.notes));
        let mut names: Vec<String> = Vec::new();
        without_report.retain(|(_, name)| {
            let is_new = !names.contains(name);
            names.push(name.clone());
            is_new
        });
        Facts {
            notes,
            end: finished.end,
            others,
            cancelled: programs.cancelled,
            without_report,
            texts,
        }
    }

    /// Returns the output of a failed test: as it was captured, or else the panic of its thread in what was printed.
    pub fn output_of<'a>(&'a self, test: &TestNote, failure: &'a Failure) -> &'a str {
        if let Some(stdout) = &failure.stdout {
            return stdout;
        }
        let place = self
            .tests_with_places()
            .find(|(_, it)| std::ptr::eq(*it, test));
        let text = place.and_then(|(place, _)| self.texts.get(&place));
        text.map_or("", |text| panic_in(text, &test.name))
    }

    /// Returns the tests with the places of their notes.
    fn tests_with_places(&self) -> impl Iterator<Item = (usize, &TestNote)> {
        let notes = self.notes.iter().enumerate();
        notes.filter_map(|(place, note)| Some((place, test_of(note)?)))
    }

    /// Returns the line that says that the run was cancelled, if that is its outcome.
    pub fn cancelled_line(&self) -> Option<String> {
        let is_cancelled = matches!(self.end.outcome, RunOutcome::Cancelled { .. });
        self.cancelled_line_of_text().filter(|_| is_cancelled)
    }

    /// Returns the same if that is the outcome, or would be if nothing had failed.
    pub fn cancelled_line_of_text(&self) -> Option<String> {
        let reason = self.cancelled?;
        let is_cut_short = self.notes.iter().any(is_cut_short);
        is_cut_short.then(|| format!("the run was cancelled ({reason:?})"))
    }

    /// Returns the tests that passed, failed, were skipped or were stopped.
    pub fn tests(&self) -> impl Iterator<Item = &TestNote> {
        self.notes.iter().filter_map(test_of)
    }

    /// Returns the failed tests.
    pub fn failures(&self) -> impl Iterator<Item = (&TestNote, &Failure)> {
        self.tests()
            .filter_map(|test| Some((test, failure_of(test)?)))
    }

    /// Returns true if a flaky test whose failed attempts are known counted as failed in the end.
    pub fn has_failed_attempts_of_failed_tests(&self) -> bool {
        let notes = self.notes.iter();
        let flaky = notes
            .filter(|note| matches!(note, Note::Flaky(test) if !attempts_of(test).0.is_empty()));
        let passed = self.tests().filter(|test| !attempts_of(test).0.is_empty());
        flaky.count() != passed.count()
    }

    /// Returns the problems, each with its line.
    pub fn problems(&self) -> impl Iterator<Item = (&Note, String)> {
        let problems = self.notes.iter();
        problems.filter_map(|note| Some((note, problem_line(note)?)))
    }

    /// Returns the suites: those that are over, in the order of their ends, and then the others. Notes of a suite are
    /// those up to its end.
    pub fn suites(&self) -> Vec<Suite<'_>> {
        let (mut open, mut over): (Vec<Suite<'_>>, Vec<Suite<'_>>) = (Vec::new(), Vec::new());
        for note in &self.notes {
            let Some(name) = suite_of_note(note) else {
                continue;
            };
            let place = open
                .iter()
                .position(|suite| suite.name.map(Rc::as_ptr) == name.map(Rc::as_ptr));
            if let Note::Suite(suite) = note {
                let is_empty =
                    suite.stats.finished_count == 0 && suite.skipped + suite.not_run == 0;
                match place.map(|place| open.remove(place)) {
                    Some(open) => over.push(Suite {
                        over: Some(note),
                        ..open
                    }),
                    None if name.is_none() && is_empty => {}
                    None => over.push(Suite {
                        name,
                        notes: Vec::new(),
                        over: Some(note),
                    }),
                }
            } else if let Some(place) = place {
                open[place].notes.push(note);
            } else {
                open.push(Suite {
                    name,
                    notes: vec![note],
                    over: None,
                });
            }
        }
        over.append(&mut open);
        over
    }
}

/// Returns the failures of the attempts of a test that passed later, and the output of the attempt that passed. Lines with the
/// numbers of the attempts divide its output.
pub fn attempts_of(test: &TestNote) -> (Vec<Failure>, Option<String>) {
    let TestOutcome::Passed {
        output: Some(output),
    } = &test.outcome
    else {
        return (Vec::new(), None);
    };
    let line = |number: usize, end: &str| format!("--- ATTEMPT {number} {end} ---\n");
    if test.attempts < 2 || !output.starts_with(&line(1, "FAILED")) {
        return (Vec::new(), Some(output.clone()));
    }
    let (mut failed, mut passed): (Vec<String>, Option<String>) = (Vec::new(), None);
    for part in output.split_inclusive('\n') {
        let next = failed.len() + 1;
        if let Some(passed) = &mut passed {
            passed.push_str(part);
        } else if next < test.attempts && part == line(next, "FAILED") {
            failed.push(String::new());
        } else if part == line(test.attempts, "PASSED") {
            passed = Some(String::new());
        } else {
            failed
                .last_mut()
                .expect("it is the first line")
                .push_str(part);
        }
    }
    let failed = failed.into_iter().map(|output| Failure {
        kind: FailureKind::Failed,
        stdout: Some(output).filter(|output| !output.is_empty()),
        message: None,
        reason: None,
    });
    (failed.collect(), passed)
}

/// Returns the test of a note that has its result.
fn test_of(note: &Note) -> Option<&TestNote> {
    match note {
        Note::Test(test) => Some(test),
        Note::Flaky(_) | Note::Contradiction(_) | Note::NotRun(_) | Note::Suite(_) => None,
    }
}

/// Returns how a test failed.
pub fn failure_of(test: &TestNote) -> Option<&Failure> {
    match &test.outcome {
        TestOutcome::Failed(failure) => Some(failure),
        TestOutcome::Passed { .. } | TestOutcome::Skipped { .. } | TestOutcome::Stopped => None,
    }
}

/// Adds the notes that wait, if this line says that their program is over, or if there is no program any more.
fn release(
    programs: &mut Programs,
    line: Option<&ProgramLine>,
    notes: &mut Vec<Note>,
    texts: &mut BTreeMap<usize, String>,
) {
    let text = match line {
        Some(ProgramLine::ProgramEnded { stderr, .. }) => stderr.as_str(),
        Some(ProgramLine::ProgramStarted(_) | ProgramLine::CommandEnded { .. }) => "",
        None if !programs.runs => "",
        _ => return,
    };
    let mut names = BTreeSet::new();
    for note in programs.held.drain(..) {
        // The first test of a name has the panic.
        if test_of(&note).is_some_and(|test| names.insert(test.name.clone())) {
            texts.insert(notes.len(), text.to_string());
        }
        notes.push(note);
    }
}

/// Returns the part of a text from the first panic of a thread up to the first one of another thread.
fn panic_in<'a>(text: &'a str, thread: &str) -> &'a str {
    let is_panic = |line: &str| line.starts_with("thread '") && line.contains(" panicked at ");
    let is_own = |line: &str| {
        let front = [
            format!("thread '{thread}' ("),
            format!("thread '{thread}' panicked at "),
        ];
        is_panic(line) && front.iter().any(|front| line.starts_with(front.as_str()))
    };
    let mut starts = Vec::new();
    let mut at = 0;
    for line in text.split_inclusive('\n') {
        if is_panic(line) {
            starts.push((at, is_own(line)));
        }
        at += line.len();
    }
    let Some(first) = starts.iter().position(|(_, is_own)| *is_own) else {
        return "";
    };
    let end = starts[first..].iter().find(|(_, is_own)| !is_own);
    &text[starts[first].0..end.map_or(text.len(), |(end, _)| *end)]
}

impl Prints {
    /// Adds what of a line is no event.
    fn add(&mut self, line: &Line, bytes: &[u8]) {
        if let Some(size) = line.rest() {
            self.text += &format!("{}\n", String::from_utf8_lossy(&bytes[..size]));
        }
    }

    /// Returns the prints since a test started: the lines that begin in the last 65,536 bytes.
    fn since_start(&self, test: &str) -> &str {
        let start = self.starts.get(test).copied().unwrap_or(0);
        let lines = self.text[start..].split_inclusive('\n').rev();
        let sizes = lines.scan(0, |size, line| {
            *size += line.len();
            Some(*size)
        });
        let size = sizes.take_while(|size| *size <= 65_536).last();
        &self.text[self.text.len() - size.unwrap_or(0)..]
    }
}

impl Programs {
    /// Returns a note that is shown now, or keeps it: a failed test whose output was not captured becomes known with its
    /// program, and so does its suite.
    fn shown(&mut self, note: Note) -> Option<Note> {
        let waits = match &note {
            Note::Test(test) => failure_of(test).is_some_and(|failure| {
                let has_line = matches!(failure.kind, FailureKind::Failed | FailureKind::TimedOut);
                has_line && failure.stdout.is_none()
            }),
            Note::Suite(_) => !self.held.is_empty(),
            _ => false,
        };
        if waits && self.runs {
            self.held.push(note);
            None
        } else {
            Some(note)
        }
    }

    /// Returns the notes of the end of a file, with the status of the command that its lines say.
    fn with_status(&mut self, mut notes: Vec<Note>) -> Vec<Note> {
        let status = self.status.take();
        for note in &mut notes {
            if let Note::Contradiction(Contradiction::Command(CommandEnd::Status { code })) = note
                && let Some(status) = status
            {
                *code = (status as i32).cast_unsigned();
            }
        }
        notes
    }

    /// Takes a line of a file in which lines of programs count. Returns the program that ends with it, if it has its own
    /// harness and wrote no event of a test.
    fn on_line(&mut self, line: &Line) -> Option<String> {
        let started = line.program().and_then(|line| match line {
            ProgramLine::ProgramStarted(start) => Some(start),
            _ => None,
        });
        let ended = match line.program() {
            Some(ProgramLine::CommandCancelled(reason)) => {
                self.cancelled = reason.or(self.cancelled);
                None
            }
            Some(ProgramLine::CommandEnded { reason, end, .. }) => {
                self.cancelled = reason.or(self.cancelled);
                match end {
                    Some(ProgramEnd::Status(0)) => {}
                    Some(ProgramEnd::Status(status)) => self.status = Some(*status),
                    Some(ProgramEnd::Signal(_)) | None => self.status = None,
                }
                self.program.take()
            }
            Some(ProgramLine::CommandStarted) => None,
            Some(_) => self.program.take(),
            None => {
                if let Event::SuiteStarted { .. } | Event::TestStarted { .. } = line.event() {
                    self.program = None;
                }
                None
            }
        };
        self.runs = match line.program() {
            Some(ProgramLine::ProgramStarted(_)) => true,
            Some(ProgramLine::ProgramEnded { .. } | ProgramLine::CommandEnded { .. }) => false,
            _ => self.runs,
        };
        if let Some(start) = started.filter(|start| start.own_harness) {
            self.program = Some(start.name.clone());
        }
        ended
    }
}

/// Returns a text without colours: `ESC [`, digits and semicolons, and `m`.
pub fn without_colours(text: &str) -> String {
    let mut parts = text.split("\u{1b}[");
    let mut plain = parts.next().unwrap_or("").to_string();
    for part in parts {
        match part.split_once('m') {
            Some((numbers, rest)) if numbers.chars().all(|c| c.is_ascii_digit() || c == ';') => {
                plain += rest;
            }
            _ => plain += &format!("\u{1b}[{part}"),
        }
    }
    plain
}

/// Returns true if a note is of a test that was stopped.
pub fn is_stopped(note: &Note) -> bool {
    test_of(note).is_some_and(|test| matches!(test.outcome, TestOutcome::Stopped))
}

/// Returns what documents say below a problem of tests that were stopped in the suite `notes` are of.
pub fn stopped_lines(notes: &[&Note]) -> Option<String> {
    let stopped = notes.iter().filter(|note| is_stopped(note));
    let tests = stopped.filter_map(|note| test_of(note));
    let lines: Vec<String> = tests
        .map(|test| {
            let suite = suite_of(test).unwrap_or("its program");
            match test.cancel {
                Some(_) => format!("{} was stopped", own_name(test)),
                None => format!("{} ran when {suite} ended", own_name(test)),
            }
        })
        .collect();
    (!lines.is_empty()).then(|| lines.join("\n"))
}

/// Returns how a test crashed, as its reason says it.
pub fn crash_end(end: ProgramEnd) -> String {
    match end {
        ProgramEnd::Status(code) => format!("status {code}"),
        ProgramEnd::Signal(2) => "signal: 2, SIGINT".to_string(),
        ProgramEnd::Signal(6) => "signal: 6, SIGABRT".to_string(),
        ProgramEnd::Signal(11) => "signal: 11, SIGSEGV".to_string(),
        ProgramEnd::Signal(15) => "signal: 15, SIGTERM".to_string(),
        ProgramEnd::Signal(number) => format!("signal: {number}"),
    }
}

/// Returns the name of the suite in which a document has a note. The tests outside of suites are in one without a name.
fn suite_of_note(note: &Note) -> Option<Option<&Rc<String>>> {
    match note {
        Note::Test(test) => Some(test.suite.as_ref()),
        Note::Suite(suite) => Some(suite.name.as_ref()),
        Note::NotRun(_) | Note::Contradiction(_) => suite_of_problem(note).map(Some),
        Note::Flaky(_) => None,
    }
}

/// Returns the name of the suite of a problem.
pub fn suite_of_problem(note: &Note) -> Option<&Rc<String>> {
    match note {
        Note::NotRun(not_run) => Some(&not_run.suite),
        Note::Contradiction(
            Contradiction::EndedEarly { suite, .. } | Contradiction::LastLine { suite, .. },
        ) => Some(suite),
        _ => None,
    }
}

/// Returns the name of the suite of a test.
pub fn suite_of(test: &TestNote) -> Option<&str> {
    test.suite.as_deref().map(String::as_str)
}

/// Returns the name of a test without the name of its suite and `$`.
pub fn own_name(test: &TestNote) -> &str {
    let prefix = suite_of(test).map(|suite| format!("{suite}$"));
    let own = prefix.and_then(|prefix| test.name.strip_prefix(prefix.as_str()));
    own.unwrap_or(&test.name)
}

/// Returns the name of the suite of a test and its own name, as they are shown.
pub fn title(test: &TestNote) -> String {
    let suite = suite_of(test).map(|suite| shown(suite) + " ");
    suite.unwrap_or_default() + &shown(own_name(test))
}

/// Returns the word for a failed test.
pub fn status_of(failure: &Failure) -> &'static str {
    match failure.kind {
        FailureKind::TimedOut => "TIMEOUT",
        FailureKind::Crashed(_) => "CRASH",
        FailureKind::Failed | FailureKind::WithoutEnd | FailureKind::Flaky => "FAIL",
    }
}

/// Returns a time in seconds with three digits after the point, rounded down.
pub fn seconds(micros: u64) -> String {
    let digits = format!("{:04}", micros / 1_000);
    let (whole, part) = digits.split_at(digits.len() - 3);
    format!("{whole}.{part}")
}

/// Returns a time in brackets and a space, or nothing.
pub fn bracket(time: Option<u64>) -> String {
    time.map_or(String::new(), |micros| {
        format!("[{:>8}s] ", seconds(micros))
    })
}

/// Returns the line of the summary.
pub fn summary(end: &RunEnd) -> String {
    let stats = &end.stats;
    let slow = match stats.passed_slow {
        0 => String::new(),
        slow => format!(", {slow} slow"),
    };
    format!(
        "{}{} tests run: {} passed ({} flaky{slow}), {} failed ({} timed out, {} crashed), {} skipped, {} not run",
        bracket(end.time),
        stats.finished_count,
        stats.passed,
        stats.flaky,
        stats.finished_count - stats.passed,
        stats.failed_timed_out,
        end.crashed,
        end.skipped,
        end.not_run,
    )
}

/// Returns the word for the outcome of a run.
pub fn outcome(end: &RunEnd) -> &'static str {
    use deodarsieve::RunOutcome;
    match end.outcome {
        RunOutcome::Success => "success",
        RunOutcome::NoTestsRun => "no-tests-run",
        RunOutcome::Cancelled { .. } => "cancelled",
        RunOutcome::Failed { .. } => "failed",
    }
}

/// Returns the line of a problem, or `None` if a note is none.
pub fn problem_line(note: &Note) -> Option<String> {
    match note {
        Note::NotRun(not_run) => Some(format!(
            "{}: {} of {} tests were not run",
            shown(&not_run.suite),
            not_run.not_run,
            not_run.initial_run_count
        )),
        Note::Contradiction(Contradiction::Cancelled(_)) => None,
        Note::Contradiction(contradiction) => Some(contradiction_line(contradiction)),
        Note::Test(_) | Note::Flaky(_) | Note::Suite(_) => None,
    }
}

/// Returns the line of a contradiction.
fn contradiction_line(contradiction: &Contradiction) -> String {
    let verdict = |failed: &bool| if *failed { "failed" } else { "ok" };
    match contradiction {
        Contradiction::EndedEarly { suite, end } => match end {
            Some(end) => format!("{} ended early, {}", shown(suite), ended_how(*end)),
            None => format!("{} ended early", shown(suite)),
        },
        Contradiction::LastLine {
            suite,
            said,
            passed,
            failed,
        } => format!(
            "{}: its last line {}, but {passed} of its tests passed and {failed} failed",
            shown(suite),
            said_text(said)
        ),
        Contradiction::StrayEnd { name, result } => {
            let result = match result {
                TestResult::Ok => "ok",
                TestResult::Failed => "failed",
                TestResult::Ignored => "ignored",
            };
            format!("{} ended {result}, and had not started", shown(name))
        }
        Contradiction::StraySuiteEnd {
            key,
            failed_verdict,
        } => {
            let key = key.as_ref().map(|key| shown(key) + " ").unwrap_or_default();
            let verdict = verdict(failed_verdict);
            format!("a suite ended that had not started: {key}{verdict}")
        }
        Contradiction::OutsideSuite { started } => {
            format!("{started} tests started outside of a suite")
        }
        Contradiction::Cargo(report) => format!("cargo: {}", controlled(&report.line, true)),
        Contradiction::Damaged { text } => format!(
            "a damaged line says that a test or a suite failed: {}",
            controlled(text, true)
        ),
        Contradiction::NoEvent { .. } => "no line of the input is of a test run".to_string(),
        Contradiction::Command(end) => command_line(end),
        Contradiction::Program(fault) => fault_line(fault),
        Contradiction::Cancelled(reason) => panic!("no form shows this: {reason:?}"),
    }
}

/// Returns the line of a command that failed.
fn command_line(end: &CommandEnd) -> String {
    match end {
        CommandEnd::NotStarted { error } => {
            format!(
                "the command could not be started: {}",
                controlled(error, true)
            )
        }
        CommandEnd::Signal { number } => format!("the command ended by signal {number}"),
        CommandEnd::Status { code } => {
            let code = code.cast_signed();
            format!("the command ended with status {code}, and no line says why")
        }
        CommandEnd::Error { words, .. } => {
            let first = words.split('\n').next().unwrap_or("");
            let first = first.strip_suffix('\r').unwrap_or(first);
            format!("cargo: {}", controlled(first, true))
        }
    }
}

/// Returns how a program ended.
fn ended_how(end: ProgramEnd) -> String {
    match end {
        ProgramEnd::Status(code) => format!("with status {code}"),
        ProgramEnd::Signal(number) => format!("by signal {number}"),
    }
}

/// Returns the line of what is wrong with a program.
fn fault_line(fault: &ProgramFault) -> String {
    match fault {
        ProgramFault::Unexplained { program, end } => {
            format!("{} ended {}", shown(program), ended_how(*end))
        }
        ProgramFault::NoTests { program } => format!("{} ended and ran no tests", shown(program)),
        ProgramFault::NoEnd { program } => format!("{} did not end", shown(program)),
        ProgramFault::NotStarted { end } => {
            let end = match end {
                ProgramEnd::Status(code) => format!("status {code}"),
                ProgramEnd::Signal(number) => format!("signal {number}"),
            };
            format!("a program ended that had not started: {end}")
        }
        ProgramFault::CutOff => {
            "the run was cut off: no line says how its command ended".to_string()
        }
    }
}

/// Returns what the last line of a suite says.
fn said_text(said: &SaidNumbers) -> String {
    let verdict = if said.failed_verdict { "failed" } else { "ok" };
    let counts = [(said.passed, "passed"), (said.failed, "failed")];
    let counts: Vec<String> = counts
        .iter()
        .filter_map(|(count, word)| Some(format!("{} {word}", (*count)?)))
        .collect();
    match counts.as_slice() {
        [] => format!("says {verdict}"),
        _ => format!("counts {} ({verdict})", counts.join(" and ")),
    }
}

/// Returns a name as it is shown in a text: at most its first 1,024 bytes.
pub fn shown(name: &str) -> String {
    let mut end = name.len().min(1_024);
    while !name.is_char_boundary(end) {
        end -= 1;
    }
    let more = if end < name.len() { ".." } else { "" };
    controlled(&name[..end], true) + more
}

/// Returns a text without control characters and characters that change the direction of writing. In a line, tabs and line
/// feeds are escapes, too.
pub fn controlled(text: &str, is_line: bool) -> String {
    let escape = |c: char| {
        let is_kept = matches!(c, '\t' | '\n') && !is_line;
        if c.is_control() && !is_kept || turns_writing(c) {
            format!("\\u{{{:x}}}", u32::from(c))
        } else {
            c.to_string()
        }
    };
    text.chars().map(escape).collect()
}

/// Returns a text with the escapes that a document has.
pub fn escaped(text: &str) -> String {
    let escape = |at: usize, c: char| {
        if begins_command(text, at, c) {
            format!("\\u{{{:x}}}", u32::from(c))
        } else {
            controlled(&c.to_string(), false)
        }
    };
    text.char_indices().map(|(at, c)| escape(at, c)).collect()
}

/// Returns true for a character that changes the direction of writing.
pub fn turns_writing(c: char) -> bool {
    "\u{61c}\u{200e}\u{200f}\u{202a}\u{202b}\u{202c}\u{202d}\u{202e}\u{2066}\u{2067}\u{2068}\u{2069}"
        .contains(c)
}

/// The marks that a CI system takes for a command anywhere in a line.
pub const MARKS: [&str; 3] = ["##[", "##vso[", "##teamcity["];

/// Returns true if a character of a text, at an offset, begins a command of a CI system.
fn begins_command(text: &str, at: usize, c: char) -> bool {
    match c {
        ':' => {
            let line = text[..at].rsplit('\n').next().unwrap_or("");
            line.trim().is_empty()
        }
        '#' => MARKS.iter().any(|mark| text[at..].starts_with(mark)),
        _ => false,
    }
}

/// Returns a text without the carriage returns that are right before a line feed.
pub fn without_returns(text: &str) -> String {
    text.replace("\r\n", "\n")
}
