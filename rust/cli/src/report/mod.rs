//! The report of a test run: what is shown of it, and in which form.
//!
//! A [`Report`] takes the lines of a run, and writes to standard output what they make known. [`Report::finish`] writes
//! the end, and returns the texts of the files. The run decides what a line means ([`deodarsieve_run`]). Here is only how
//! that is shown:
//!
//! | from | by | to |
//! |---|---|---|
//! | a note of the run | `entry`, with `failure` (why a test failed), `problem` and `limit` (how much is shown) | an entry, which all forms take |
//! | a failed build | `build`, `problem` | entries |
//! | entries | `text`, with `list` and `screen`, and `annotations` | text, through the proved type `ReportText` |
//! | entries | `model_builder` | one `model` of the finished report, which is JSON by its derives |
//! | the model | `groups` (failures of one cause), `page`, `summary`, `junit`, all with `values` | a page, a summary and JUnit's XML, through the proved templates |
//!
//! `program_lines` has what a report needs of lines of programs, `held` the notes that wait for the end of a program, and
//! `thread_panic` the panics that were printed. `attempts` has the failed attempts of flaky tests. `colours` reads the
//! colours in texts of tests. `diff` and `backtrace` make the values of failed assertions and the backtraces in them shorter.
//! `output` has the only types that standard output takes. `escape` shows control characters as escapes such as
//! `\u{1b}`, and so does the type `ReportText` with what was not escaped before.

pub mod advice;
mod annotations;
mod attempts;
mod backtrace;
pub mod build;
mod cause;
mod colours;
pub mod comparison;
mod debug_lines;
mod diff;
mod ends;
mod entry;
mod escape;
mod explanation;
mod failure;
pub mod fault;
mod forms;
mod groups;
mod held;
mod junit;
mod levels;
mod limit;
mod lines;
mod list;
mod model;
mod model_builder;
mod note_kinds;
mod numbers;
pub mod options;
mod output;
mod page;
mod pieces;
mod place;
mod problem;
mod program_lines;
pub mod screen;
mod short;
mod showing;
mod slowest;
mod stopped;
mod style;
mod suite_key;
mod summary;
mod text;
mod thread_panic;
mod values;
mod whole_output;
mod words;

use crate::command::failed_tests::ProgramResults;
use crate::command::run_line::time_in;
use crate::command::test_results::TestResults;
use crate::report::advice::Advice;
use crate::report::annotations::Annotations;
use crate::report::build::FailedBuild;
use crate::report::comparison::{Comparison, EarlierRun};
use crate::report::fault::Fault;
use crate::report::held::HeldNotes;
use crate::report::model_builder::ModelBuilder;
use crate::report::note_kinds::comes_last;
use crate::report::options::Options;
use crate::report::output::Text;
use crate::report::program_lines::ProgramLines;
use crate::report::text::TextForm;
use crate::report::thread_panic::ThreadPanics;
use deodarsieve::CancelReason;
use deodarsieve_run::{
    CommandEnd, Event, Finished, Line, ProgramLine, ProgramRun, RunEnd, SuiteNames, TestRun,
};
use std::collections::VecDeque;
use std::io::{self, Write};
use std::time::Duration;

pub use crate::report::forms::{FileTexts, Files, Format};
pub use crate::report::output::{Document, FailedNames, Json};
pub use crate::report::words::{missing_words, progress_text};

/// The end of a report.
pub struct Ended {
    /// The sums and the outcome of the run.
    pub run: RunEnd,

    /// The exit status of the run.
    pub status: u8,

    /// The texts of the files.
    pub files: FileTexts,
}

/// A report, which is written while its run is read.
pub struct Report {
    run: ProgramRun,

    /// What lines of programs say that the notes of the run do not have.
    programs: ProgramLines,

    /// The notes that wait for the end of the program that runs.
    held: HeldNotes,

    /// The panics that were printed while tests ran, if no lines of programs count.
    panics: ThreadPanics,
    options: Options,
    format: Format,

    /// The documents of files and of standard output.
    documents: Files,

    /// The text that is not written yet.
    text: Text,

    /// What the text has at its end, if the format has it.
    form: Option<TextForm>,

    /// The annotations of GitHub, if the format has them.
    annotations: Option<Annotations>,

    /// The names of the failed tests, if they are a file.
    names: Option<Text>,

    /// What documents and JSON have, if there are any.
    model: Option<ModelBuilder>,

    /// The comparison with an earlier run, if there is one.
    comparison: Option<Comparison>,

    /// The build of the tests, if it failed.
    build: Option<FailedBuild>,

    /// True if the text names a test when it has run for a minute, as it does in the run of a command.
    names_hung_tests: bool,

    /// What became of the tests of each program, if somebody wants to know.
    results: Option<TestResults>,

    /// True if a test failed or lines contradict each other, as far as was shown.
    has_failure: bool,

    /// True if a suite, a program or the command did not end as it would have, because the run was cancelled.
    is_cut_short: bool,

    /// True if the run is the output of a command that writes no lines of programs.
    is_command: bool,
}

impl Report {
    /// Returns a report that has read and written nothing. A test whose time is at least `slow` microseconds is slow.
    /// `file_names` are the names of the files of the run in their order, if it has several.
    pub fn new(
        options: Options,
        format: Format,
        files: Files,
        slow: u64,
        file_names: VecDeque<String>,
    ) -> Report {
        let has_text = matches!(format, Format::Text | Format::Annotated { .. });
        let documents = files.with(format);
        let has_model = documents.have_model();
        Report {
            run: ProgramRun::new(TestRun::with_file_names(slow, file_names)),
            programs: ProgramLines::default(),
            held: HeldNotes::default(),
            panics: ThreadPanics::default(),
            options,
            format,
            documents,
            text: Text::new(if has_text {
                options
            } else {
                options.without_raw()
            }),
            form: has_text.then(|| TextForm::new(options)),
            annotations: format.annotations().map(Annotations::new),
            names: files.names.then(|| Text::new(options.for_file())),
            model: has_model.then(|| ModelBuilder::new(documents)),
            comparison: None,
            build: None,
            names_hung_tests: false,
            results: None,
            has_failure: false,
            is_cut_short: false,
            is_command: false,
        }
    }

    /// Returns the run, up to the line that was taken last.
    pub fn run(&self) -> &TestRun {
        self.run.run()
    }

    /// From now on learns what becomes of the tests of each program. `measures` is true if the programs measure benchmarks.
    pub fn collect_results(&mut self, measures: bool) {
        self.results = Some(TestResults::new(measures));
    }

    /// Returns what is known of the programs, if the report learns that.
    pub fn results(&self) -> Option<&TestResults> {
        self.results.as_ref()
    }

    /// Returns what became of the tests of the programs that have ended since the last call.
    pub fn take_results(&mut self) -> Vec<(String, ProgramResults)> {
        let results = self.results.as_mut();
        results.map(TestResults::take_ended).unwrap_or_default()
    }

    /// Returns true if a test failed or lines contradict each other, as far as was shown.
    pub fn has_failure(&self) -> bool {
        self.has_failure
    }

    /// Notes that the output of a command is read next. Call it before the first line of the output, and
    /// `finish` after the last one. If `names` has a name for the path in a heading, the suites after the heading have this
    /// name.
    pub fn start_command(&mut self, names: SuiteNames) {
        self.run.on_command_started(names);
        self.is_command = true;
    }

    /// Compares the run with an earlier one. Call it before the first line.
    pub fn compare_with(&mut self, earlier: EarlierRun) {
        self.comparison = Some(Comparison::with(earlier));
    }

    /// Takes the advice for the case that no line of the command is one of a harness.
    pub fn set_advice(&mut self, advice: Advice) {
        if let Some(form) = &mut self.form {
            form.advice = advice;
        }
    }

    /// Notes whether the errors of the compiler are on standard error. Then the text leaves them out.
    pub fn set_errors_are_passed_on(&mut self, are_passed_on: bool) {
        if let Some(form) = &mut self.form {
            form.errors_are_passed_on = are_passed_on;
        }
    }

    /// Adds the time for which the tests of a command ran, by the clock.
    pub fn add_duration(&mut self, duration: Duration) {
        if let Some(form) = &mut self.form {
            let before = form.duration.unwrap_or_default();
            form.duration = Some(before.saturating_add(duration));
        }
    }

    /// Notes that nothing else shows which tests run. Then the text names each test of a command that has run for a minute.
    pub fn name_hung_tests(&mut self) {
        self.names_hung_tests = true;
    }

    /// Notes that the tests could not be built, if no line of the run says so. Why is reported at the end, in place of how
    /// the command ended.
    pub fn fail_build(&mut self, build: FailedBuild) {
        self.build = Some(build);
    }

    /// Notes that the run is cancelled for this reason. Of the tests that become known from now on, the text shows as
    /// much as the levels of the layer show for this reason.
    pub fn cancel(&mut self, reason: CancelReason) {
        self.run.on_cancelled(reason);
        self.programs.cancel(reason);
    }

    /// Takes a line of the run, without its line feed, and writes what it makes known. What of the line is no event is
    /// first written to `others`, with a line feed. If `others` fails, the report is the same.
    ///
    /// Fails if `output` does, or if a number of the run does not fit.
    pub fn on_line(
        &mut self,
        bytes: &[u8],
        output: &mut impl Write,
        others: &mut impl Write,
    ) -> Result<(), Fault> {
        let line = Line::read(bytes);
        if self.programs.ends_before(&line) {
            self.end_file(output)?;
        }
        let ended = self.programs.on_line(&line);
        if self.programs.count()
            && ends_command(&line)
            && let Some(duration) = time_in(bytes)
        {
            self.add_duration(duration);
        }
        if let Some(results) = &mut self.results {
            results.on_line(&line, bytes);
        }
        if !self.programs.on_message(bytes) {
            pass_on(&line, bytes, others);
        }
        if let Event::TestSlow { name } = line.event() {
            self.show_hung(name);
        }
        self.take_print(&line, bytes);
        let mut notes = self.run.on_line(&line)?;
        notes.sort_by_key(comes_last);
        self.show_own_harness(ended);
        let (released, stderr) = self.held.released_by(&line);
        self.show_released(&released, stderr, output)?;
        if self.programs.program().is_some() {
            notes = self.held.keep(notes);
        }
        if notes.is_empty() {
            return self.write_text(output);
        }
        let panics = self.panics.take_of(&notes);
        self.show(&notes, &panics, output)
    }

    /// Takes what of a line is no event, if tests run that may have printed it and nothing else says what they printed.
    fn take_print(&mut self, line: &Line, bytes: &[u8]) {
        if self.programs.count() {
            return;
        }
        if self.run().first_running().is_none() {
            self.panics.clear();
        } else if let Some(size) = line.rest() {
            self.panics.on_print(&bytes[..size]);
        }
        if let Event::TestStarted { name } = line.event() {
            self.panics.on_test_started(name);
        }
    }

    /// Takes the end of a file of the run that is not the last one, and writes what it makes known.
    ///
    /// Fails if `output` does, or if a number of the run does not fit.
    pub fn end_file(&mut self, output: &mut impl Write) -> Result<(), Fault> {
        let notes = self.run.end_file()?;
        self.show_end_of_file(notes, output)?;
        Ok(())
    }

    /// Takes the end of the last file, and how the command ended if its output was read. Writes what this makes known, and
    /// the end of the report.
    ///
    /// Fails if `output` does, or if a number of the run does not fit.
    pub fn finish(
        mut self,
        command: Option<CommandEnd>,
        output: &mut impl Write,
    ) -> Result<Ended, Fault> {
        let has_events = self.run().has_suite() || self.run().tests_started() > 0;
        let has_ended = matches!(
            command,
            Some(CommandEnd::Status { .. } | CommandEnd::Signal { .. })
        );
        let Finished { notes, end, status } =
            self.run.finish(command, self.options.no_tests_pass)?;
        let is_build = self.show_end_of_file(notes, output)? && !has_events;
        self.show_cancelled(&end, output)?;
        let lacks_events = has_ended && !has_events;
        let mut texts = self.end_texts(&end, is_build, lacks_events);
        write_texts(&mut texts, output)?;
        let mut files = FileTexts::default();
        if let Some(model) = self.model {
            files = FileTexts::of(
                model.finish(&end, self.comparison),
                self.documents,
                self.options,
            );
            output.write_all(files.of_output(self.format).as_bytes())?;
        }
        files.names = self.names.map(FailedNames::of);
        output.flush()?;
        Ok(Ended {
            run: end,
            status,
            files,
        })
    }
}

/// Returns true for a line that says how a command ended.
fn ends_command(line: &Line) -> bool {
    matches!(line.program(), Some(ProgramLine::CommandEnded { .. }))
}

/// Writes what of a line is no event to `others`.
fn pass_on(line: &Line, bytes: &[u8], others: &mut impl Write) {
    if let Some(size) = line.rest() {
        let mut rest = bytes[..size].to_vec();
        rest.push(b'\n');
        // The writer remembers a failure.
        let _ = others.write_all(&rest);
    }
}

/// Writes texts one after another, by one write.
fn write_texts(texts: &mut [Text], output: &mut impl Write) -> io::Result<()> {
    let mut all = Vec::new();
    for text in texts {
        text.write_to(&mut all)?;
    }
    output.write_all(&all)
}
