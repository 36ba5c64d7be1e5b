//! Lines of a test run in, exact accounting out.
//!
//! Rust's test harness (libtest) and [cargo nextest](https://nexte.st) can write a test run as lines
//! of JSON. This crate reads these lines. It returns which tests passed, failed, timed out, crashed,
//! were flaky, were skipped or did not run, where lines contradict each other, and whether the run
//! succeeded. It is for test runners, build systems and reporters that show a run in their own way.
//!
//! 1. [`Line::read`] parses a line. It accepts any bytes: a line that is no event is a print.
//! 2. [`TestRun::on_line`] takes the line, and returns the [notes](Note) that it makes known, for
//!    example that a test failed.
//! 3. [`TestRun::finish`] ends the run. It returns the last notes, the sums, the outcome, and the exit
//!    status for a program.
//!
//! The crate reads no files and starts no processes. A run keeps its open suites, its running and its
//! flaky tests, and not the other tests that are over.
//!
//! # Example
//!
//! In this run the test `adds` passes, `divides` fails, and the process ends while `parses` runs.
//!
//! ```
//! use deodarsieve_run::{FailureKind, Line, Note, RunError, TestOutcome, TestRun};
//!
//! let lines = r#"{ "type": "suite", "event": "started", "test_count": 3 }
//! { "type": "test", "event": "started", "name": "adds" }
//! { "type": "test", "name": "adds", "event": "ok" }
//! { "type": "test", "event": "started", "name": "divides" }
//! { "type": "test", "name": "divides", "event": "failed", "stdout": "attempt to divide by zero\n" }
//! { "type": "test", "event": "started", "name": "parses" }"#;
//!
//! let mut run = TestRun::new(60_000_000); // A test is slow from 60 seconds on.
//! let mut notes = Vec::new();
//! for line in lines.lines() {
//!     notes.extend(run.on_line(&Line::read(line.as_bytes()))?);
//! }
//! let finished = run.finish(None, false)?;
//! notes.extend(finished.notes);
//!
//! let mut report = Vec::new();
//! for note in &notes {
//!     if let Note::Test(test) = note
//!         && let TestOutcome::Failed(failure) = &test.outcome
//!     {
//!         let output = failure.stdout.as_deref().unwrap_or_default().trim_end();
//!         report.push(match failure.kind {
//!             FailureKind::Crashed(_) => format!("{} crashed", test.name),
//!             _ => format!("{} failed: {output}", test.name),
//!         });
//!     }
//! }
//! report.push(format!("{:?}, exit status {}", finished.end.outcome, finished.status));
//! println!("{}", report.join("\n"));
//! assert_eq!(
//!     report,
//!     [
//!         "divides failed: attempt to divide by zero",
//!         "parses crashed",
//!         "Failed { step: Test }, exit status 1",
//!     ]
//! );
//! # Ok::<(), RunError>(())
//! ```
//!
//! # Where the lines come from
//!
//! | runner | arguments | variable of the environment |
//! |---|---|---|
//! | libtest | `cargo test --no-fail-fast -- -Z unstable-options --format json` | `RUSTC_BOOTSTRAP=1`, or a nightly toolchain |
//! | cargo nextest | `cargo nextest run --message-format libtest-json` | `NEXTEST_EXPERIMENTAL_LIBTEST_JSON=1` |
//!
//! - Pass the lines of standard error too, in the order in which they were written (`2>&1`). Cargo's
//!   headings there name the suites. Cargo's errors say why no test ran, or which signal ended a process.
//! - If you start the command yourself, call [`TestRun::on_command_started`] before the first line, and
//!   pass how it ended to `finish` as a [`CommandEnd`]. Then a command that failed is a failed run, even
//!   if no line says why.
//! - A run can have several files. Call [`TestRun::end_file`] after each file except the last one, and
//!   `finish` after the last one.
//! - If the user ends the run early, call [`TestRun::on_cancelled`]. The tests that run then were stopped
//!   and did not crash, and no end that follows is a contradiction.
//! - [`TestRun::numbers`] and [`TestRun::first_running`] say how far the run is.
//!
//! # Lines of programs
//!
//! `test-report` starts each test program itself. In a run that it saves, lines say how each program, and
//! the command that runs them, started and ended. [`ProgramRun`] follows such a run; other runs it follows
//! as the [`TestRun`] in it does. These lines count in a file whose first line is one of them:
//!
//! | line | what it does |
//! |---|---|
//! | `{"type":"command","event":"started"}` | nothing: it is the first line |
//! | `{"type":"program","event":"started","name":"ledger"}` | The suites that start from now on are those of the program `ledger` ([`ProgramStart`]) |
//! | `{"type":"program","event":"ended","status":101,"stderr":""}` | The program ended with a status, or by a `"signal"` ([`ProgramEnd`]). Its suites end early. What it wrote to standard error may name the tests that crashed |
//! | `{"type":"command","event":"cancelled","cancelled":"Interrupt"}` | Ctrl-C (`Interrupt`) or SIGTERM (`Signal`) was taken here |
//! | `{"type":"command","event":"ended","status":101}` | The command ended, perhaps with an `"error"`. The file ends here |
//!
//! While they count, headings and failures of cargo say nothing, and neither does any other line that is no
//! event. [`ProgramFault`] lists what can be wrong with a program. [`Line::program`] returns what a line says
//! of one, wherever the line is.
//!
//! ```
//! use deodarsieve_run::{Contradiction, Line, Note, ProgramFault, ProgramRun, RunError, TestRun};
//!
//! let lines = r#"{"type":"command","event":"started"}
//! {"type":"program","event":"started","name":"ledger"}
//! {"type":"suite","event":"started","test_count":1}
//! {"type":"test","event":"started","name":"adds"}
//! {"type":"test","event":"ok","name":"adds"}
//! {"type":"suite","event":"ok","passed":1,"failed":0}
//! {"type":"program","event":"ended","signal":11,"stderr":""}
//! {"type":"command","event":"ended","status":101}"#;
//!
//! let mut run = ProgramRun::new(TestRun::new(60_000_000));
//! let mut faults = Vec::new();
//! for line in lines.lines() {
//!     for note in run.on_line(&Line::read(line.as_bytes()))? {
//!         if let Note::Contradiction(Contradiction::Program(ProgramFault::Unexplained {
//!             program,
//!             end,
//!         })) = note
//!         {
//!             faults.push(format!("{program}: {end:?}"));
//!         }
//!     }
//! }
//! assert_eq!(faults, ["ledger: Signal(11)"]);
//! assert_eq!(run.finish(None, false)?.status, 1);
//! # Ok::<(), RunError>(())
//! ```
//!
//! # What comes out
//!
//! | note | what it says |
//! |---|---|
//! | [`Note::Test`] | A test passed, was skipped, was stopped or failed ([`TestOutcome`]). A [`FailureKind`] says how it failed: by its line, by its time limit, in a crash, without a last line, or as a flaky test that counts as failed |
//! | [`Note::Flaky`] | A test passed after several attempts. Its `Note::Test` follows when its suite is over |
//! | [`Note::Contradiction`] | Lines contradict each other, or something failed that is no test ([`Contradiction`]). In a cancelled run [`Contradiction::Cancelled`] replaces each one about an end |
//! | [`Note::NotRun`] | Some tests of a suite did not run |
//! | [`Note::Suite`] | A suite is over: its numbers. Each file ends with one that has no name: the numbers of the tests outside of suites, even if there are none |
//!
//! Notes come as early as they are known: a failed test is returned by the line that says so. At the end
//! of a suite its notes have this order: tests without an end, flaky tests, contradictions, tests that did
//! not run, numbers. [`Finished`] has the rest: the last notes, the sums of all suites ([`RunEnd`]), and
//! the exit status.
//!
//! # What decides the outcome
//!
//! | [`RunOutcome`] | exit status | when |
//! |---|---|---|
//! | `Failed` | 1 | A test failed, or there is a contradiction other than [`Contradiction::Cancelled`] |
//! | `Cancelled` | 1 | Some tests did not run or were stopped, or there is a [`Contradiction::Cancelled`], and nothing else is wrong |
//! | `NoTestsRun` | 1, or 0 if `no_tests_pass` is true | Nothing is wrong, and no test passed |
//! | `Success` | 0 | Nothing is wrong, and a test passed |
//!
//! Skipped tests, and tests that a filter left out, are no failure.
//!
//! # What is proved
//!
//! The modules behind these items are written in Rattle, a dialect of Rust whose compiler checks a proof
//! for every function. Here they are without their contracts, as plain Rust. The proofs are about the
//! sources in Rattle, and these laws follow from them, for all lines:
//!
//! - A line is read in one way: it has one list of events.
//! - Each line that says that a test failed is exactly one failed test, with the time and the reason in
//!   the line, and with its name: without `#N` after N attempts. No other line, and no end of a file,
//!   makes such a test known.
//! - A run succeeds only if a test passed, and no line of a test, no last line of a suite and no damaged
//!   line says that something failed. Then each suite has its last line, and this line agrees with its
//!   tests. Each command ended with status 0, and each other file has an event.
//! - The totals are the counts of the notes. Only `skipped` can be greater, because a last line can count
//!   ignored tests that have no line of their own.
//! - A run that does not succeed has a reason among its notes: a failed test, a contradiction or a test
//!   that did not run. Otherwise no test passed.
//!
//! This is not proved:
//!
//! - The step from the sources to this text, the Rust compiler, and the crates `bstr` and `serde_json`.
//!   The tests of this package are about this text.
//! - That the lines are true. Lines do not say who wrote them, so a test whose output is not captured can
//!   print lines in the harness's form. They can make a run fail. They cannot hide a line that says
//!   `failed`.
//!
//! # Errors and panics
//!
//! [`RunError::CounterFull`] is the only error: a number does not fit its counter, which is a `usize` or a
//! `u128`. No counter wraps. Sums of times, and [`RunNumbers`], stop at the greatest value instead.
//! After an error the run must not be used. No function panics. If memory runs out, the process aborts.
//!
//! # The items by what they are for
//!
//! - Lines: [`Line`], [`Event`], [`SuiteKey`], [`SuiteEnd`], [`TestResult`], [`TestDetails`],
//!   [`CargoFailure`], [`microseconds`].
//! - Lines of programs: [`ProgramLine`], [`ProgramStart`], [`ProgramEnd`].
//! - The run: [`TestRun`], [`ProgramRun`], [`Finished`], [`CommandEnd`], [`SuiteNames`], [`EarlyEnd`],
//!   [`RunNumbers`], [`FirstRunning`], [`RunError`], [`exit_status`].
//! - Notes: [`Note`], [`TestNote`], [`TestOutcome`], [`Failure`], [`FailureKind`], [`Crash`],
//!   [`Contradiction`], [`SaidNumbers`], [`CargoReport`], [`ProgramFault`], [`NotRun`], [`SuiteNote`].
//! - The end: [`RunEnd`], [`RunOutcome`], [`RunFailureStep`], [`RunStats`], [`CancelReason`],
//!   [`failed_count`].
//! - For the levels of a reporter in [`deodarsieve`]: [`Finish`], [`finished_test`], [`FinishedTest`].
#![deny(unsafe_code)]
#![deny(missing_docs)]
#![allow(
    clippy::manual_filter,
    clippy::manual_map,
    clippy::manual_ok_err,
    clippy::manual_range_contains,
    clippy::mem_replace_with_default,
    clippy::option_as_ref_deref,
    clippy::question_mark,
    reason = "forms of the proved text, which `tools/erase` leaves as they are"
)]

mod events;
mod notes;
mod programs;
#[allow(
    clippy::new_without_default,
    reason = "`Running::new` takes an allocator in the proved text, where there is no `Default` for it"
)]
#[allow(
    clippy::vec_box,
    reason = "open suites are large, and the removal of one moves all later ones"
)]
#[allow(
    clippy::mem_replace_option_with_some,
    reason = "`tools/erase` takes a call of a method `replace` for that of texts, which allocates in the proved text"
)]
#[allow(
    clippy::unwrap_or_default,
    reason = "a set takes an allocator in the proved text, where there is no `Default` for it"
)]
#[allow(
    clippy::module_inception,
    reason = "the module `run` of the proved crate `test_report_run`"
)]
mod run;
mod std_impls;

#[cfg(test)]
mod full_counters;

/// The examples of the package's page.
#[cfg(doctest)]
#[doc = include_str!("../README.md")]
struct Readme;

pub use deodarsieve;
pub use deodarsieve::{
    CancelReason, CounterFull, FinishedTest, RunFailureStep, RunOutcome, RunStats,
};
pub use events::event::{CargoFailure, Event, SuiteEnd, SuiteKey, TestDetails, TestResult};
pub use events::line::Line;
pub use events::program::{ProgramEnd, ProgramLine, ProgramStart};
pub use events::time::microseconds;
pub use notes::finish::{Finish, finished_test};
pub use notes::note::{
    CargoReport, CommandEnd, Contradiction, Crash, Failure, FailureKind, NotRun, Note,
    ProgramFault, RunEnd, SaidNumbers, SuiteNote, TestNote, TestOutcome, failed_count,
};
pub use programs::run::ProgramRun;
pub use run::early::EarlyEnd;
pub use run::error::RunError;
pub use run::run::progress::{FirstRunning, RunNumbers};
pub use run::run::{Finished, TestRun};
pub use run::status::exit_status;
pub use run::suite_names::SuiteNames;
