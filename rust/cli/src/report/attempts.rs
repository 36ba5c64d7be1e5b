//! Tests that passed, and the attempts of them that failed before.

use crate::attempts::AttemptOutputs;
use crate::report::colours::trim_end;
use crate::report::failure::{FailureTexts, ShownFailure};
use crate::report::options::Options;
use deodarsieve_run::{Failure, FailureKind, Note, TestNote, TestOutcome};

/// A test that passed, and what every form shows of it.
pub(crate) struct PassedTest<'a> {
    pub(crate) test: &'a TestNote,

    /// The attempts that failed, if their outputs are known.
    pub(crate) failed: &'a [ShownFailure<'a>],
}

impl<'a> PassedTest<'a> {
    /// Returns the output of the attempt that passed, without the white space at its end, or `None` if nothing is left.
    pub(crate) fn output(&self) -> Option<&'a str> {
        let output = trim_end(outputs_of(self.test)?.passed?);
        (!output.is_empty()).then_some(output)
    }
}

/// Returns the outputs of the attempts of a test, if it passed and has one.
fn outputs_of(test: &TestNote) -> Option<AttemptOutputs<'_>> {
    match &test.outcome {
        TestOutcome::Passed { output } => {
            Some(AttemptOutputs::of(output.as_deref()?, test.attempts))
        }
        TestOutcome::Skipped { .. } | TestOutcome::Stopped | TestOutcome::Failed(_) => None,
    }
}

/// Returns the test of a note.
fn test_of(note: &Note) -> Option<&TestNote> {
    match note {
        Note::Test(test) | Note::Flaky(test) => Some(test),
        Note::Contradiction(_) | Note::NotRun(_) | Note::Suite(_) => None,
    }
}

/// Returns the failures of the attempts of a note's test, if it passed and their outputs are known.
pub(crate) fn failures_of(note: &Note) -> Vec<Failure> {
    let outputs = test_of(note).and_then(outputs_of);
    let failed = outputs.map(|outputs| outputs.failed).unwrap_or_default();
    let failures = failed.into_iter().map(|output| Failure {
        kind: FailureKind::Failed,
        stdout: (!output.is_empty()).then(|| output.to_string()),
        message: None,
        reason: None,
    });
    failures.collect()
}

/// Returns what is shown of these failures, which are of the attempts of a note's test. `texts` are theirs. Of the options it
/// uses the same as `ShownFailure::of`.
pub(crate) fn shown_failures<'a>(
    note: &'a Note,
    failures: &'a [Failure],
    texts: &'a [FailureTexts<'a>],
    options: Options,
) -> Vec<ShownFailure<'a>> {
    let Some(test) = test_of(note) else {
        return Vec::new();
    };
    let failures = failures.iter().zip(texts);
    failures
        .map(|(failure, texts)| ShownFailure::of(test, failure, texts, options))
        .collect()
}
