//! The text for people, with a list of tests at its end.

use crate::report::advice::Advice;
use crate::report::attempts::PassedTest;
use crate::report::build::FailedTarget;
use crate::report::comparison::Comparison;
use crate::report::entry::Entry;
use crate::report::escape::name;
use crate::report::failure::ShownFailure;
use crate::report::levels::{
    attempts_output, final_level, finished_output, has_line, skipped_output,
};
use crate::report::limit::Limit;
use crate::report::lines::without_returns;
use crate::report::list::{LIST_MARGIN, List};
use crate::report::model::FailedResult;
use crate::report::numbers::Numbers;
use crate::report::options::Options;
use crate::report::output::Text;
use crate::report::problem::{CONTRADICTION, Problem};
use crate::report::words::{
    numbers_in_words, outcome_text, style_of, summary, time_and_title, title_of,
};
use deodarsieve::{FinalStatusLevel, OutputOnTestFinished, OutputStoreFinal, StatusLevel};
use deodarsieve_run::{Finish, RunEnd, TestNote};
use std::time::Duration;

/// The number of spaces before each line of why a test failed.
const MARGIN: usize = 4;

/// The line between what is written while the run is read, the list, and the summary for scripts.
const SEPARATOR: &str = "------------\n";

/// The text for people: the tests that the levels show, failed ones with why they failed, the problems, and at the end
/// a list of tests and a summary.
pub(crate) struct TextForm {
    options: Options,

    /// The advice if there are no lines of a harness.
    pub(crate) advice: Advice,

    /// True if the errors of the compiler are on standard error. Then they are left out.
    pub(crate) errors_are_passed_on: bool,

    /// How long the command ran, by the clock, if there was one.
    pub(crate) duration: Option<Duration>,
    list: List,
}

impl TextForm {
    /// Returns the form before the first entry.
    pub(crate) fn new(options: Options) -> TextForm {
        TextForm {
            options,
            advice: Advice::Input,
            errors_are_passed_on: false,
            duration: None,
            list: List::new(options),
        }
    }

    /// Appends the text of an entry, and keeps what the list has of it.
    pub(crate) fn on_entry(&mut self, entry: &Entry<'_>, text: &mut Text) {
        match entry {
            Entry::Failed(failure) => self.on_failed(failure, text),
            Entry::Passed(passed) => self.on_passed(passed, text),
            Entry::Flaky(passed) => push_passed(passed, self.options, text),
            Entry::Skipped(test) => self.on_skipped(test, text),
            Entry::Stopped(test) => self.on_stopped(test),
            Entry::Problem(problem) => self.on_problem(problem, text),
            Entry::FailedTarget(target) => self.on_failed_target(target, text),
            Entry::Suite(_) | Entry::CompilerError(_) => {}
        }
    }

    /// Returns the end of the text: the comparison with an earlier run, the list, the numbers that are not 0 and, unless it
    /// is for a terminal, the summary for scripts. `lacks_events` is true if a command wrote no line of a harness.
    pub(crate) fn on_end(
        mut self,
        end: &RunEnd,
        lacks_events: bool,
        comparison: Option<&Comparison>,
    ) -> Vec<Text> {
        let mut head = Text::new(self.options);
        if let Some(comparison) = comparison {
            head.push(&format!("{}\n", comparison.line()));
        }
        if lacks_events && self.advice.is_of_command() {
            self.push_advice(&mut head);
        }
        let mut foot = self.numbers(end);
        if !self.options.screen.is_terminal {
            foot.push(&format!("{SEPARATOR}     Summary {}\n", summary(end)));
            self.push_outcome(end, &mut foot);
        }
        let list = self.list.into_texts(comparison);
        if !list.is_empty() {
            head.push(SEPARATOR);
        }
        [head].into_iter().chain(list).chain([foot]).collect()
    }

    /// Returns the end of the text of a run whose tests could not be built. What became of it was said before.
    pub(crate) fn on_failed_build(&self, end: &RunEnd) -> Vec<Text> {
        let mut text = Text::new(self.options);
        if !self.options.screen.is_terminal {
            self.push_outcome(end, &mut text);
        }
        vec![text]
    }

    /// Returns the line of the numbers that are not 0, and of the time by the clock.
    fn numbers(&self, end: &RunEnd) -> Text {
        let mut text = Text::new(self.options);
        let words = numbers_in_words(Numbers::of_run(end), self.list.error_count);
        if words.is_empty() {
            text.push("no test ran");
        }
        for (place, (words, style)) in words.iter().enumerate() {
            text.push(if place > 0 { ", " } else { "" });
            text.push_styled(words, *style);
        }
        if let Some(duration) = self.duration {
            text.push(&format!(" in {:.1} s", duration.as_secs_f64()));
        }
        text.push("\n");
        text
    }

    /// Appends the line of the outcome.
    fn push_outcome(&self, end: &RunEnd, text: &mut Text) {
        text.push(&format!("outcome {}\n", outcome_text(end.outcome)));
    }

    /// Appends the line of a target that does not compile and, if they are not on standard error, its errors.
    fn on_failed_target(&self, target: &FailedTarget<'_>, text: &mut Text) {
        text.push(&format!("{}\n", target.line()));
        if !self.errors_are_passed_on {
            for error in &target.errors {
                text.push(&format!("    {}\n", error.line(&target.name)));
            }
        }
    }

    /// Appends the advice. That about a command comes once.
    fn push_advice(&mut self, text: &mut Text) {
        text.push(&self.advice.text());
        if self.advice.is_of_command() {
            self.advice = Advice::Nobody;
        }
    }

    /// Takes a test that failed.
    fn on_failed(&mut self, failure: &ShownFailure<'_>, text: &mut Text) {
        let (test, kind, options) = (failure.test, &failure.failure.kind, self.options);
        let (status, finish) = (FailedResult::of(kind).status(), Finish::of_failure(kind));
        let shows = finished_output(options, finish, test);
        if has_line(shows) {
            let attempts = match test.attempts {
                0 | 1 => "\n".to_string(),
                attempts => format!(" ({attempts} attempts)\n"),
            };
            push_line(status, test, &attempts, text);
        }
        if shows.show_immediate {
            push_why(failure, MARGIN, text);
        }
        self.list.keep_time(test);
        if let OutputStoreFinal::Yes { display_output } = shows.store_final {
            let why = display_output.then(|| {
                let mut why = Text::new(options);
                push_why(failure, LIST_MARGIN, &mut why);
                why
            });
            self.list.add_failure(failure, why);
        }
    }

    /// Takes a test that passed. What is shown of a flaky test was written when it passed.
    fn on_passed(&mut self, passed: &PassedTest<'_>, text: &mut Text) {
        let (test, options) = (passed.test, self.options);
        if test.attempts <= 1 {
            push_passed(passed, options, text);
        }
        self.list.keep_time(test);
        let own = display_at_end(finished_output(options, Finish::Passed, test));
        let first = passed.failed.first();
        let of_attempts = first.and_then(|_| display_at_end(attempts_output(options, test)));
        if own.or(of_attempts).is_none() {
            return;
        }
        let status = match test.attempts {
            0 | 1 if test.slow => "SLOW".into(),
            _ => passed_status(test),
        };
        let (level, short) = (
            final_level(Finish::Passed, test),
            first.map(ShownFailure::short),
        );
        let part = self.list.add(&status, level, test, short.as_deref());
        if of_attempts == Some(true) {
            push_attempts(passed.failed, LIST_MARGIN, part);
        }
        if own == Some(true) {
            push_output(passed, LIST_MARGIN, options, part);
        }
    }

    /// Takes a skipped test.
    fn on_skipped(&mut self, test: &TestNote, text: &mut Text) {
        let options = self.options;
        let shows = skipped_output(options, test);
        if has_line(shows) {
            push_line("SKIP", test, "\n", text);
        }
        if let OutputStoreFinal::Yes { .. } = shows.store_final {
            self.list.add("SKIP", FinalStatusLevel::Skip, test, None);
        }
    }

    /// Takes a test that was stopped. If the run was cancelled, the list has it, if it has failed tests, and among them.
    /// Otherwise the problem of its suite has it.
    fn on_stopped(&mut self, test: &TestNote) {
        if test.cancel.is_some() && self.lists_failures() {
            self.list.add_stopped(test);
        }
    }

    /// Returns true if the list has failed tests.
    fn lists_failures(&self) -> bool {
        self.options.final_status_level >= FinalStatusLevel::Fail
    }

    /// Appends that a test of a program, if one is known, has run for a minute. Tests that are not to be shown when they end
    /// are not named, either.
    pub(crate) fn on_hung(&self, program: Option<&str>, test: &str, text: &mut Text) {
        if self.options.status_level > StatusLevel::None {
            text.push_styled("SLOW", style_of("SLOW"));
            text.push(&format!(" [> 60s] {}\n", title_of(program, test)));
        }
    }

    /// Appends that a program has its own harness, and no report.
    pub(crate) fn on_own_harness(&self, program: &str, text: &mut Text) {
        let program = name(program);
        text.push(&format!("{program} has its own harness, and no report\n"));
    }

    /// Takes a problem: its line, under it what explains it, and how to get lines of a harness if there were none. The list
    /// has contradictions if it has failed tests, and among them.
    fn on_problem(&mut self, problem: &Problem<'_>, text: &mut Text) {
        text.push(&format!("{}\n", problem.line));
        if let Some(why) = problem.why.as_ref().filter(|_| !problem.why_is_listed) {
            text.push_indented_names(&why.shown(), MARGIN);
        }
        if problem.lacks_events {
            self.push_advice(text);
        }
        if problem.kind == CONTRADICTION {
            self.list.error_count += 1;
            if self.lists_failures() {
                self.list.add_error(&problem.line);
            }
        }
    }
}

/// Appends the line of a test that passed, why its failed attempts failed, and its output, if the levels show them.
fn push_passed(passed: &PassedTest<'_>, options: Options, text: &mut Text) {
    let test = passed.test;
    let own = finished_output(options, Finish::Passed, test);
    let shows_own = own.show_immediate && passed.output().is_some();
    let shows_attempts = !passed.failed.is_empty() && attempts_output(options, test).show_immediate;
    if own.write_status_line || shows_own || shows_attempts {
        push_line(&passed_status(test), test, "\n", text);
    }
    if shows_attempts {
        push_attempts(passed.failed, MARGIN, text);
    }
    if shows_own {
        push_output(passed, MARGIN, options, text);
    }
}

/// Returns whether the list displays the output of a test, or `None` if it does not have the test.
fn display_at_end(shows: OutputOnTestFinished) -> Option<bool> {
    match shows.store_final {
        OutputStoreFinal::Yes { display_output } => Some(display_output),
        OutputStoreFinal::No => None,
    }
}

/// Appends why the failed attempts of a test failed, each below a line with its number.
fn push_attempts(failed: &[ShownFailure<'_>], margin: usize, text: &mut Text) {
    for (number, failure) in (1..).zip(failed) {
        text.push_indented(&format!("attempt {number} failed:"), margin);
        push_why(failure, margin, text);
    }
}

/// Appends the status, the time and the name of a test, and after these a text of the report.
fn push_line(status: &str, test: &TestNote, end: &str, text: &mut Text) {
    text.push_styled(status, style_of(status));
    text.push(&format!(" {}{end}", time_and_title(test)));
}

/// Appends why a test failed. If several tests of a suite crashed, only the first has the explanation.
fn push_why(failure: &ShownFailure<'_>, margin: usize, text: &mut Text) {
    let below = failure.why_below();
    let why = below.as_ref().unwrap_or_else(|| failure.why());
    text.push_indented(&why.text, margin);
}

/// Appends the output of a test that passed, or nothing if there is none.
fn push_output(passed: &PassedTest<'_>, margin: usize, options: Options, text: &mut Text) {
    if let Some(output) = passed.output() {
        let shown = without_returns(output);
        text.push_indented(&Limit::of_passed(options).shown(&shown), margin);
    }
}

/// Returns the word for a test that passed.
fn passed_status(test: &TestNote) -> String {
    match test.attempts {
        0 | 1 => "PASS".to_string(),
        attempts => format!("FLAKY {attempts}/{attempts}"),
    }
}
