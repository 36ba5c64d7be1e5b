// Made by tools/erase from crates/test_report_run_notes/src/note.rt. Do not edit.
//! The notes that the lines of a run make known, and the end of a run.

use crate::events::event::TestResult;
use crate::events::program::ProgramEnd;
use deodarsieve::CancelReason;
use deodarsieve::RunOutcome;
use deodarsieve::RunStats;
use std::rc::Rc;

/// A fact about a run that a line, or the end of a file, makes known.
#[derive(Clone, Debug)]
pub enum Note {
    /// A test passed, failed, was skipped or was stopped.
    Test(TestNote),

    /// A test passed after several attempts. Whether it counts as passed becomes known when its suite ends.
    Flaky(TestNote),

    /// Lines of the run contradict each other, a damaged line says a failure, a file has no event, or the command
    /// of the run failed.
    Contradiction(Contradiction),

    /// Some tests of a suite did not run.
    NotRun(NotRun),

    /// A suite is over. The end of each file, and the early end of a program, also make one without a name known: the
    /// numbers of the tests outside of suites, even if there are none.
    Suite(SuiteNote),
}

/// A test, and whether it passed, failed, was skipped or was stopped.
#[derive(Clone, Debug)]
pub struct TestNote {
    /// The name of the suite of the test, or `None` if the test started outside of a suite. The notes of a suite
    /// share it.
    pub suite: Option<Rc<String>>,

    /// The name of the test in its lines, without `#` and the number of attempts.
    pub name: String,

    /// The number of attempts.
    pub attempts: usize,

    /// The time that the test took, in microseconds.
    pub time: Option<u64>,

    /// The number of tests that ended before this one, or `None` if no line says that it ended.
    pub ended: Option<usize>,

    /// True if the test was slow: a line says so, or its time is at least that of a slow test.
    pub slow: bool,

    /// The reason why the run had been cancelled when this became known, if it had been.
    pub cancel: Option<CancelReason>,

    /// Whether the test passed, failed, was skipped or was stopped.
    pub outcome: TestOutcome,
}

/// The outcome of a test.
#[derive(Clone, Debug)]
pub enum TestOutcome {
    /// The test passed. It is flaky if it took several attempts.
    Passed {
        /// The output of the test, if its line has some.
        output: Option<String>,
    },

    /// The test was skipped.
    Skipped {
        /// The reason in the line that says so, if it has one.
        reason: Option<String>,
    },

    /// The test ran when its suite ended early, and did not crash: the run was cancelled, or another test crashed. It
    /// counts as not run.
    Stopped,

    /// The test failed.
    Failed(Failure),
}

/// How a test failed, with the texts that its lines have about it.
#[derive(Clone, Debug)]
pub struct Failure {
    /// The kind of the failure.
    pub kind: FailureKind,

    /// The output of the test, if it was captured. Standard output and standard error are one text.
    pub stdout: Option<String>,

    /// The message of the harness, if there is one.
    pub message: Option<String>,

    /// The reason that the harness gives, if it gives one.
    pub reason: Option<String>,
}

/// The kinds of failures.
#[derive(Clone, Debug)]
pub enum FailureKind {
    /// A line says that the test failed.
    Failed,

    /// A line says that the test ran out of time.
    TimedOut,

    /// The test has no line of its end, and the last line of its suite counts it as failed.
    WithoutEnd,

    /// The test passed after several attempts, and the last line of its suite counts it as failed.
    Flaky,

    /// The test crashed: it was running when its suite ended without a last line.
    Crashed(Crash),
}

/// How a test crashed.
#[derive(Clone, Debug)]
pub struct Crash {
    /// The number of tests of the suite that crashed then, including this one.
    pub running: usize,

    /// True if the suite has a key. Then each of its tests ran in a process of its own.
    pub has_key: bool,

    /// How the program of the suite ended, if a line says so.
    pub end: Option<ProgramEnd>,

    /// The line after `Caused by:`, in which cargo names the signal, or its first 200 bytes.
    pub cause: Option<String>,

    /// The text of the prints after the suite started, up to the first heading or failure of cargo: the longest
    /// end of them that has at most 16,384 bytes. The crashed tests of a suite share it.
    pub prints: Rc<String>,

    /// The last three of these prints that are not blank, or their first 200 bytes.
    pub last: Vec<String>,

    /// True if another test of the suite crashed before this one. Its note is right before that of this test, and
    /// has the same prints and the same cause.
    pub above: bool,
}

/// A contradiction between lines of a run. A damaged line that says a failure, a file without an event of a
/// harness, and the end of a command that failed count as contradictions, too.
#[derive(Clone, Debug)]
pub enum Contradiction {
    /// A suite has no last line, and none of its tests crashed.
    EndedEarly {
        /// The name of the suite.
        suite: Rc<String>,

        /// How the program of the suite ended, if a line says so.
        end: Option<ProgramEnd>,
    },

    /// The last line of a suite has other numbers or another verdict than the lines of its tests.
    LastLine {
        /// The name of the suite.
        suite: Rc<String>,

        /// The numbers and the verdict of the last line.
        said: SaidNumbers,

        /// The number of its tests that passed.
        passed: usize,

        /// The number of its tests that failed.
        failed: usize,
    },

    /// A test ended that was not running.
    StrayEnd {
        /// The name of the test in the line.
        name: String,

        /// The result in the line.
        result: TestResult,
    },

    /// A suite ended that was not open.
    StraySuiteEnd {
        /// The key of the suite, if it has one.
        key: Option<String>,

        /// True if the line says that the suite failed.
        failed_verdict: bool,
    },

    /// Tests started outside of a suite.
    OutsideSuite {
        /// The number of these tests.
        started: usize,
    },

    /// Cargo or nextest reports a failure that nothing else explains.
    Cargo(CargoReport),

    /// A damaged line says that a test or a suite failed.
    Damaged {
        /// The text of the line, or its first 200 bytes if it is longer.
        text: String,
    },

    /// A file has no event of a harness, no failed test and no other contradiction.
    NoEvent {
        /// The name of the file, if the files of the run have names.
        file: Option<String>,
    },

    /// The command of the run could not be started, ended by a signal, or ended with a status above 0 although no
    /// test failed and there was no other contradiction.
    Command(CommandEnd),

    /// The lines of programs contradict each other, or a program did not end as it should have.
    Program(ProgramFault),

    /// The run was cancelled, and because of that a suite, a program or the command did not end as it would have. In
    /// such a run this takes the place of the contradiction that it would be otherwise.
    Cancelled(CancelReason),
}

/// What is wrong with the lines of programs.
#[derive(Clone, Debug)]
pub enum ProgramFault {
    /// A program ended with a status other than 0 or by a signal, and nothing that became known since it started says
    /// why.
    Unexplained {
        /// The name of the program.
        program: String,

        /// How it ended.
        end: ProgramEnd,
    },

    /// A program ended with status 0, and ran no test.
    NoTests {
        /// The name of the program.
        program: String,
    },

    /// No line says how a program ended, and nothing else became known that is wrong with it.
    NoEnd {
        /// The name of the program.
        program: String,
    },

    /// A program ended in this way while none ran.
    NotStarted {
        /// How it ended.
        end: ProgramEnd,
    },

    /// No line says how the command ended.
    CutOff,
}

/// A failure that cargo or nextest reports.
#[derive(Clone, Debug)]
pub struct CargoReport {
    /// The line of the failure, as a terminal shows it.
    pub line: String,

    /// The text of the prints before it, after the last heading, event or failure, as a terminal shows them: the
    /// longest end of them that has at most 16,384 bytes.
    pub prints: String,

    /// The line after the first `Caused by:` that comes after the failure and before the next heading, event or
    /// failure, or its first 200 bytes, as a terminal shows it.
    pub cause: Option<String>,

    /// True if this is the first failure of the file that says that tests failed, no line before it is an event of a
    /// harness, and the next heading, event or failure is none either.
    pub lacks_events: bool,
}

/// How a command ended.
#[derive(Clone, Debug)]
pub enum CommandEnd {
    /// The command could not be started.
    NotStarted {
        /// What the system says about it.
        error: String,
    },

    /// A signal ended the command.
    Signal {
        /// The number of the signal.
        number: u32,
    },

    /// The command exited with this status.
    Status {
        /// The exit status.
        code: u32,
    },

    /// The command exited with a status other than 0, and said why.
    Error {
        /// The exit status.
        code: u32,

        /// The words of the command.
        words: String,
    },
}

/// The numbers and the verdict in the last line of a suite. If it has several, their numbers are added.
#[derive(Clone, Copy, Debug, Default, PartialEq, Eq)]
pub struct SaidNumbers {
    /// True if a line says that the suite failed.
    pub failed_verdict: bool,

    /// The number of tests that passed, including measured benchmarks.
    pub passed: Option<u128>,

    /// The number of tests that failed.
    pub failed: Option<u128>,
}

/// The number of tests of a suite that did not run.
#[derive(Clone, Debug)]
pub struct NotRun {
    /// The name of the suite.
    pub suite: Rc<String>,

    /// The number of tests that did not run.
    pub not_run: u128,

    /// The number of tests that were to run.
    pub initial_run_count: u128,
}

/// The numbers of a suite that is over.
#[derive(Clone, Debug)]
pub struct SuiteNote {
    /// The name of the suite, or `None` for the tests that started outside of a suite.
    pub name: Option<Rc<String>>,

    /// The statistics of its finished tests.
    pub stats: RunStats,

    /// The number of tests that were skipped.
    pub skipped: u128,

    /// The number of tests that did not run.
    pub not_run: u128,

    /// The number of failed tests that crashed.
    pub crashed: usize,

    /// The time that the suite took, in microseconds.
    pub time: Option<u64>,
}

/// The sums and the outcome of a whole run.
#[derive(Clone, Copy, Debug, PartialEq, Eq)]
pub struct RunEnd {
    /// The statistics of the finished tests of all suites.
    pub stats: RunStats,

    /// The number of tests that were skipped.
    pub skipped: u128,

    /// The number of tests that did not run.
    pub not_run: u128,

    /// The number of failed tests that crashed.
    pub crashed: usize,

    /// The sum of the times of all suites, in microseconds.
    pub time: Option<u64>,

    /// The outcome of the run.
    pub outcome: RunOutcome,
}

/// Returns the number of tests that failed: those that finished and did not pass.
pub fn failed_count(stats: &RunStats) -> usize {
    stats.finished_count.saturating_sub(stats.passed)
}
