//! What a report writes: texts and annotations, and what each form gets of the run.

use crate::report::Report;
use crate::report::annotations::{push_failed_name, push_notice};
use crate::report::attempts::{failures_of, shown_failures};
use crate::report::build::FailedBuild;
use crate::report::entry::Entry;
use crate::report::failure::FailureTexts;
use crate::report::fault::Fault;
use crate::report::forms::Format;
use crate::report::note_kinds::{ends_part, is_cancellation, is_failure, is_said_by_build};
use crate::report::output::Text;
use crate::report::problem::Problem;
use crate::report::stopped::StoppedTests;
use crate::report::thread_panic::ThreadPanics;
use deodarsieve::RunOutcome;
use deodarsieve_run::{Note, RunEnd};
use std::io::Write;
use std::iter::repeat;

impl Report {
    /// Writes the notes that become known with the end of their program, which wrote `stderr` as far as is known.
    pub(super) fn show_released(
        &mut self,
        notes: &[Note],
        stderr: &str,
        output: &mut impl Write,
    ) -> Result<(), Fault> {
        if notes.is_empty() {
            return Ok(());
        }
        let panics = ThreadPanics::of(stderr).take_of(notes);
        self.show(notes, &panics, output)
    }

    /// Adds to the text for people that a test has run for a minute, if nothing else shows that.
    pub(super) fn show_hung(&mut self, test: &str) {
        let program = self.programs.program();
        let is_of_command = self.is_command || program.is_some();
        if let Some(form) = &self.form
            && self.names_hung_tests
            && is_of_command
        {
            form.on_hung(program, test, &mut self.text);
        }
    }

    /// Adds to the text for people that a program has its own harness, if one does.
    pub(super) fn show_own_harness(&mut self, program: Option<String>) {
        if let (Some(program), Some(form)) = (program, &self.form) {
            form.on_own_harness(&program, &mut self.text);
        }
    }

    /// Writes what the end of a file makes known. Returns true if the build of its tests failed.
    pub(super) fn show_end_of_file(
        &mut self,
        mut notes: Vec<Note>,
        output: &mut impl Write,
    ) -> Result<bool, Fault> {
        let ended = self.programs.end_program();
        self.show_own_harness(ended);
        let released = self.held.release();
        self.show_released(&released, "", output)?;
        let build = self.programs.end_file(&mut notes);
        let build = self.build.take().or(build);
        if let Some(build) = &build {
            self.show_build(build, output)?;
            notes.retain(|note| !is_said_by_build(note));
        }
        self.show_parts(notes, output)?;
        Ok(build.is_some())
    }

    /// Writes why the run was cancelled, if that is its outcome. If something failed, too, only the text for people says so:
    /// documents would count it as one more error.
    pub(super) fn show_cancelled(
        &mut self,
        end: &RunEnd,
        output: &mut impl Write,
    ) -> Result<(), Fault> {
        let Some(reason) = self.programs.cancelled() else {
            return Ok(());
        };
        let entry = Entry::Problem(Problem::of_cancelled(reason));
        if let RunOutcome::Cancelled { .. } = end.outcome {
            self.show_entry(&entry);
        } else if let Some(form) = &mut self.form
            && (self.is_cut_short || end.not_run > 0)
        {
            form.on_entry(&entry, &mut self.text);
        }
        self.write_text(output)
    }

    /// Returns the end of the text and of the annotations. `is_build` is true if the tests could not be built, and
    /// `lacks_events` if a command wrote no line of a harness.
    pub(super) fn end_texts(
        &mut self,
        end: &RunEnd,
        is_build: bool,
        lacks_events: bool,
    ) -> Vec<Text> {
        let mut texts = match self.form.take() {
            Some(form) if is_build => form.on_failed_build(end),
            Some(form) => form.on_end(end, lacks_events, self.comparison.as_ref()),
            None => Vec::new(),
        };
        if let Some(annotations) = self.annotations.take() {
            let mut text = Text::new(self.options.without_raw());
            annotations.push_failures(&mut text);
            push_notice(end, is_build, self.comparison.as_ref(), &mut text);
            texts.push(text);
        }
        texts
    }

    /// Writes what the end of a file makes known, part after part. The notes of many crashed tests take much memory, so
    /// they are dropped then.
    pub(super) fn show_parts(
        &mut self,
        notes: Vec<Note>,
        output: &mut impl Write,
    ) -> Result<(), Fault> {
        for part in notes.split_inclusive(ends_part) {
            self.show(part, &[], output)?;
        }
        Ok(())
    }

    /// Writes why a build failed: each target that does not compile and its errors, or else what cargo says.
    pub(super) fn show_build(
        &mut self,
        build: &FailedBuild,
        output: &mut impl Write,
    ) -> Result<(), Fault> {
        let options = self.options;
        if let Some(end) = build.end.as_ref().filter(|_| !build.messages.have_errors()) {
            let problem = Problem::of_failed_build(end, options.output);
            self.show_entry(&Entry::Problem(problem));
        } else {
            for target in &build.messages.failed_targets() {
                self.show_entry(&Entry::FailedTarget(target));
                for error in &target.errors {
                    let problem = Problem::of_compiler_error(&target.name, error, options);
                    self.show_entry(&Entry::CompilerError(problem));
                }
            }
        }
        self.write_text(output)
    }

    /// Writes what notes make known at once. `panics` has for the first notes what was printed of the panics of their tests.
    pub(super) fn show(
        &mut self,
        notes: &[Note],
        panics: &[String],
        output: &mut impl Write,
    ) -> Result<(), Fault> {
        let (options, stopped) = (self.options, StoppedTests::of(notes));
        self.has_failure |= notes.iter().any(is_failure);
        self.is_cut_short |= notes.iter().any(is_cancellation);
        let panics = panics.iter().map(String::as_str).chain(repeat(""));
        for (note, panics) in notes.iter().zip(panics) {
            let texts = FailureTexts::of(note, panics);
            let attempts = failures_of(note);
            let of_attempt = |failure| FailureTexts::of_failure(failure, "");
            let attempt_texts: Vec<_> = attempts.iter().map(of_attempt).collect();
            let failed = shown_failures(note, &attempts, &attempt_texts, options);
            if let Some(entry) = Entry::of(note, &stopped, &texts, &failed, options) {
                self.show_entry(&entry);
            }
        }
        self.write_text(output)
    }

    /// Passes an entry to each form.
    pub(super) fn show_entry(&mut self, entry: &Entry<'_>) {
        if let Some(comparison) = &mut self.comparison {
            comparison.on_entry(entry);
        }
        if let Some(model) = &mut self.model {
            model.on_entry(entry);
        }
        if let Some(form) = &mut self.form {
            form.on_entry(entry, &mut self.text);
        }
        if let Some(annotations) = &mut self.annotations {
            annotations.on_entry(entry);
        }
        if let Some(names) = &mut self.names {
            push_failed_name(entry, names);
        }
        if self.format == Format::Names {
            push_failed_name(entry, &mut self.text);
        }
    }

    /// Writes the text that is not yet written, and then the annotations of problems. Flushes the output if there is
    /// something.
    pub(super) fn write_text(&mut self, output: &mut impl Write) -> Result<(), Fault> {
        let annotations = self.annotations.as_mut();
        let annotations = annotations.map(|annotations| &mut annotations.problems);
        let mut is_written = false;
        for text in [Some(&mut self.text), annotations].into_iter().flatten() {
            if !text.is_empty() {
                text.write_to(output)?;
                is_written = true;
            }
        }
        if is_written {
            output.flush()?;
        }
        Ok(())
    }
}
