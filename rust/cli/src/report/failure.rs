//! Failed tests, and what is shown of why they failed.

use crate::report::backtrace::with_short_backtraces;
use crate::report::colours::{
    Paint, shown_size, trim_end, with_colours_in_lines, with_reset, without_colours,
};
use crate::report::diff::with_diffs;
use crate::report::ends::crash_end;
use crate::report::explanation::{Excerpt, Found};
use crate::report::limit::{Limit, may_have_cut_lines};
use crate::report::lines::{ten_written, without_returns, written_count};
use crate::report::options::{Options, OutputDisplay};
use crate::report::place::Place;
use crate::report::short::short_reason;
use crate::report::words::{counted, seconds_text};
use deodarsieve_run::{Crash, Failure, FailureKind, Note, TestNote, TestOutcome};
use std::borrow::Cow;
use std::cell::OnceCell;

/// The texts of a failed test that may say why it failed.
#[derive(Default)]
pub(crate) struct FailureTexts<'a> {
    /// The prints before a crash, or else the output of the test or, if that was not captured, its panics.
    output: &'a str,

    /// The same without colours.
    plain: Cow<'a, str>,

    /// The message without colours, if there is one.
    message: Option<Cow<'a, str>>,
}

/// A failed test, and what every form shows of it. Its texts are not escaped yet.
pub(crate) struct ShownFailure<'a> {
    /// The test.
    pub(crate) test: &'a TestNote,

    /// How it failed.
    pub(crate) failure: &'a Failure,

    texts: &'a FailureTexts<'a>,

    /// The place in the sources, if it is known.
    pub(crate) place: Option<Place<'a>>,

    /// The short reason: one line, whole, without colours.
    reason: String,

    /// True if a part of the output says why it failed.
    is_explained: bool,

    /// The output, with diffs and short backtraces.
    clear: OnceCell<ClearOutput<'a>>,

    /// Why it failed, as the options of the report say that it is shown.
    why: OnceCell<Why>,

    options: Options,
}

/// An output in which diffs take the place of values, and short backtraces that of whole ones.
struct ClearOutput<'a> {
    text: Cow<'a, str>,

    /// True if there is one of them.
    is_changed: bool,
}

/// Why a test failed, as it is shown.
pub(crate) struct Why {
    /// One or more lines. The last one has the number of lines of the output that are left out, if there are some that are
    /// not blank. It may have colours. Unless it is raw, each of its lines has its own.
    pub(crate) text: String,

    /// True if not all of the output and of its lines is shown as it was.
    pub(crate) is_partial: bool,
}

/// The short reason of a failure and why the test failed, with all lines whole and as they were, but without colours.
pub(crate) struct WholeLines {
    pub(crate) short: String,
    pub(crate) why: String,
}

impl Why {
    /// Returns these parts, one below the other, as far as the limit holds them. `hidden` is the number of lines of the
    /// output that are in none of them.
    fn of(parts: &[Cow<'_, str>], hidden: usize, limit: Limit) -> Why {
        // A single part, which may be long, is not copied.
        let joined = match parts {
            [part] => Cow::from(part.as_ref()),
            parts => parts.join("\n").into(),
        };
        let whole = without_returns(&joined);
        let (mut text, is_partial) = match limit.shown(&whole) {
            Cow::Borrowed(_) => (whole.into_owned(), hidden > 0),
            Cow::Owned(shown) => (shown, true),
        };
        if hidden > 0 {
            text.push_str(&format!("\n({} of output)", counted(hidden, "more line")));
        }
        Why { text, is_partial }
    }
}

impl<'a> FailureTexts<'a> {
    /// Returns the texts of the failed test of a note, or empty ones if the note has none. `panics` is what was printed of its
    /// panics if its output was not captured.
    pub(crate) fn of(note: &'a Note, panics: &'a str) -> FailureTexts<'a> {
        failed_test(note).map_or_else(FailureTexts::default, |(_, failure)| {
            FailureTexts::of_failure(failure, panics)
        })
    }

    /// Returns the texts of a failure. `panics` is the same as above.
    pub(crate) fn of_failure(failure: &'a Failure, panics: &'a str) -> FailureTexts<'a> {
        let output = output_of(failure, panics);
        FailureTexts {
            output,
            plain: without_colours(output),
            message: failure.message.as_deref().map(without_colours),
        }
    }
}

impl<'a> ShownFailure<'a> {
    /// Returns what is shown of a failed test with these texts. Of the options it uses only `limit`, `output`, `raw` and
    /// `color`.
    pub(crate) fn of(
        test: &'a TestNote,
        failure: &'a Failure,
        texts: &'a FailureTexts<'a>,
        options: Options,
    ) -> Self {
        let found = Found::of(&texts.plain);
        let message = texts.message.as_deref();
        ShownFailure {
            test,
            failure,
            texts,
            place: Place::of(test, failure, message, &found),
            reason: short_reason(test, failure, message, &found),
            is_explained: found.slice.is_some(),
            clear: OnceCell::new(),
            why: OnceCell::new(),
            options,
        }
    }

    /// Returns the short reason: one line.
    pub(crate) fn short(&self) -> Cow<'_, str> {
        Limit::of(self.options).short(&self.reason)
    }

    /// Returns why the test failed, as the options of the report say that it is shown.
    pub(crate) fn why(&self) -> &Why {
        self.why.get_or_init(|| self.why_by(self.options))
    }

    /// Returns why the test failed, as other options say that it is shown.
    pub(crate) fn why_by(&self, options: Options) -> Why {
        self.why_with(options.output, Limit::of(options))
    }

    /// Returns why the test failed where there is room for about this number of bytes, or `None` if `why` has no more.
    pub(crate) fn why_within(&self, bytes: usize) -> Option<Why> {
        let is_longer = shown_size(&self.why().text) > bytes;
        is_longer.then(|| self.why_with(self.options.output, Limit::within(bytes)))
    }

    /// Returns the same lines as `short` and `why`, with all lines whole, and without colours, diffs and short backtraces.
    /// Returns `None` if they are so there.
    pub(crate) fn whole_lines(&self) -> Option<WholeLines> {
        let (limit, display) = (Limit::of(self.options), self.options.output);
        let limit = limit.with_whole_lines();
        let (short, why) = (limit.short(&self.reason), &self.why().text);
        let may_differ = short != self.short()
            || may_have_cut_lines(why)
            || shown_size(why) < why.len()
            || self.clear().is_changed;
        may_differ.then(|| {
            let whole = self.why_of(&self.texts.plain, display, limit);
            WholeLines {
                short: short.into_owned(),
                why: without_colours(&whole.text).into_owned(),
            }
        })
    }

    /// Returns why the test failed if a text shows the test before it, too. If several tests of a suite crashed, only
    /// the first has the explanation.
    pub(crate) fn why_below(&self) -> Option<Why> {
        let has_above = crash_of(self.failure).is_some_and(|crash| crash.above);
        (has_above && self.is_explained).then(|| {
            let mut parts = self.reasons();
            parts.push("as above".into());
            Why::of(&parts, 0, Limit::of(self.options))
        })
    }

    /// Returns why the test failed. Of whole outputs, all is as it was.
    fn why_with(&self, display: OutputDisplay, limit: Limit) -> Why {
        let clear = self.clear();
        match display {
            OutputDisplay::Auto | OutputDisplay::Short => {
                let why = self.why_of(&clear.text, display, limit);
                let is_partial = why.is_partial || clear.is_changed;
                Why { is_partial, ..why }
            }
            OutputDisplay::Whole => {
                self.why_of(&self.shown(self.texts.output.into()), display, limit)
            }
        }
    }

    /// Returns the output with diffs and short backtraces.
    fn clear(&self) -> &ClearOutput<'a> {
        self.clear.get_or_init(|| {
            let output = self.shown(self.texts.output.into());
            let Options { raw, color, .. } = self.options;
            let paint = if raw && !color {
                Paint::Nothing
            } else {
                Paint::Colours
            };
            let shorter = with_short_backtraces(&output, paint);
            let text = shorter.as_deref().unwrap_or(&output);
            let changed = with_diffs(text, paint).or(shorter);
            ClearOutput {
                is_changed: changed.is_some(),
                text: changed.map_or(output, Cow::from),
            }
        })
    }

    /// Returns a text of the test with its own colours in each line, unless it is raw.
    fn shown(&self, text: Cow<'a, str>) -> Cow<'a, str> {
        if !self.options.raw
            && let Cow::Owned(lines) = with_colours_in_lines(&text)
        {
            return lines.into();
        }
        text
    }

    /// Returns why the test failed: the reasons, and below them the part of the output that is shown.
    fn why_of(&self, output: &str, display: OutputDisplay, limit: Limit) -> Why {
        let mut parts = self.reasons();
        let excerpt = self.excerpt(output, display, &parts, limit);
        let shown = excerpt.as_ref().map_or(0, Excerpt::written_count);
        let hidden = match crash_of(self.failure) {
            Some(_) => 0,
            None => written_count(output).saturating_sub(shown),
        };
        match &excerpt {
            Some(excerpt) if self.options.raw => parts.push(excerpt.text()),
            // White space at the end, which is left out, may have a sequence after it.
            Some(excerpt) => parts.push(with_reset(excerpt.text())),
            None => parts.extend(self.last_parts(!parts.is_empty())),
        }
        Why::of(&parts, hidden, limit)
    }

    /// Returns what is shown of an output: all of it, or the explanation in it with lines before it, or ten lines if
    /// there is neither an explanation nor a message. Of the prints before a crash nothing is shown without an
    /// explanation. `above` is what is shown above the output.
    fn excerpt<'b>(
        &self,
        output: &'b str,
        display: OutputDisplay,
        above: &[Cow<'_, str>],
        limit: Limit,
    ) -> Option<Excerpt<'b>> {
        let is_crash = crash_of(self.failure).is_some();
        let whole = trim_end(output);
        let is_whole = match display {
            OutputDisplay::Auto => limit.holds_shown(whole),
            OutputDisplay::Short => false,
            OutputDisplay::Whole => true,
        };
        if is_whole && !is_crash {
            return (!whole.is_empty()).then(|| Excerpt::of(whole));
        }
        let plain = without_colours(output);
        match (Found::of(&plain).explanation_in(output), display) {
            (Some(explanation), OutputDisplay::Short) => Some(explanation.excerpt(limit)),
            (Some(explanation), OutputDisplay::Auto | OutputDisplay::Whole) => {
                Some(explanation.excerpt_with_lines_before(above, limit))
            }
            (None, _) if is_crash || self.failure.message.is_some() => None,
            (None, _) => ten_written(output).map(Excerpt::of),
        }
    }

    /// Returns the reasons that lines of the run give for the failure. For a crash these are a sentence, how the program
    /// ended, and the cause that cargo names.
    fn reasons(&self) -> Vec<Cow<'a, str>> {
        let failure = self.failure;
        let reasons = match crash_of(failure) {
            Some(crash) => [
                Some(crash_words(crash).into()),
                crash.end.map(|end| crash_end(end).into()),
                crash.cause.as_deref().map(Cow::from),
            ],
            None => [
                reason_of(failure, self.test.time),
                failure.message.as_deref().map(Cow::from),
                None,
            ],
        };
        let reasons = reasons.into_iter().flatten();
        reasons.map(|reason| self.shown(reason)).collect()
    }

    /// Returns what is shown if nothing is shown of the output: the last prints before a crash, or that there is no
    /// output if there are no reasons either.
    fn last_parts(&self, has_reasons: bool) -> Vec<Cow<'a, str>> {
        match crash_of(self.failure) {
            Some(crash) => crash
                .last
                .iter()
                .map(|last| self.shown(last.into()))
                .collect(),
            None if has_reasons => Vec::new(),
            None => vec!["no output was captured".into()],
        }
    }
}

/// Returns the failed test of a note, and how it failed, or `None` if the note has none.
pub(crate) fn failed_test(note: &Note) -> Option<(&TestNote, &Failure)> {
    match note {
        Note::Test(test) => match &test.outcome {
            TestOutcome::Failed(failure) => Some((test, failure)),
            TestOutcome::Passed { .. } | TestOutcome::Skipped { .. } | TestOutcome::Stopped => None,
        },
        Note::Flaky(_) | Note::Contradiction(_) | Note::NotRun(_) | Note::Suite(_) => None,
    }
}

/// Returns the text that may explain a failure: the prints before a crash, or else the output of the test or, if that was
/// not captured, its panics.
fn output_of<'a>(failure: &'a Failure, panics: &'a str) -> &'a str {
    match (crash_of(failure), &failure.stdout) {
        (Some(crash), _) => &crash.prints,
        (None, Some(stdout)) => stdout,
        (None, None) => panics,
    }
}

/// Returns how a test crashed, or `None` if it failed in another way.
pub(crate) fn crash_of(failure: &Failure) -> Option<&Crash> {
    match &failure.kind {
        FailureKind::Crashed(crash) => Some(crash),
        FailureKind::Failed
        | FailureKind::TimedOut
        | FailureKind::WithoutEnd
        | FailureKind::Flaky => None,
    }
}

/// Returns the sentence for a crash. What ended before the test did is the run if the suite has a key, or else the
/// process of the test.
pub(crate) fn crash_words(crash: &Crash) -> String {
    let ended = if crash.has_key {
        "the run"
    } else {
        "its process"
    };
    match crash.running {
        0 | 1 => format!("{ended} ended before it did"),
        running => format!("one of {running} tests that ran when {ended} ended"),
    }
}

/// Returns the reason of a failure, or `None` if no line gives one. `time` is the time that the test took, in
/// microseconds.
pub(crate) fn reason_of(failure: &Failure, time: Option<u64>) -> Option<Cow<'_, str>> {
    match &failure.kind {
        FailureKind::TimedOut => Some(match time {
            Some(micros) => format!("timed out after {}s", seconds_text(micros)).into(),
            None => "timed out".into(),
        }),
        FailureKind::Flaky => Some("flaky, and set to fail".into()),
        FailureKind::WithoutEnd => Some("no line says how it ended".into()),
        FailureKind::Failed | FailureKind::Crashed(_) => failure.reason.as_deref().map(Cow::from),
    }
}
