//! Entries: what the forms take.

use crate::report::attempts::PassedTest;
use crate::report::build::FailedTarget;
use crate::report::failure::{FailureTexts, ShownFailure};
use crate::report::options::Options;
use crate::report::problem::Problem;
use crate::report::stopped::StoppedTests;
use deodarsieve_run::{Contradiction, Note, SuiteNote, TestNote, TestOutcome};

/// A note of a run, or what a build that failed makes known, with what the forms show of it.
pub(crate) enum Entry<'a> {
    /// A test passed.
    Passed(PassedTest<'a>),

    /// A flaky test passed. With another entry it counts as passed or as failed.
    Flaky(PassedTest<'a>),

    /// A test was skipped.
    Skipped(&'a TestNote),

    /// A test was stopped: the run was cancelled, or another test crashed.
    Stopped(&'a TestNote),

    /// A test failed.
    Failed(ShownFailure<'a>),

    /// Lines of the run contradict each other, or some tests of a suite were not run.
    Problem(Problem<'a>),

    /// A suite has ended.
    Suite(&'a SuiteNote),

    /// A target does not compile. Its errors are entries of their own.
    FailedTarget(&'a FailedTarget<'a>),

    /// The compiler reports an error. The form for people shows it below its target.
    CompilerError(Problem<'a>),
}

impl<'a> Entry<'a> {
    /// Returns the entry of a note, or `None` if no form shows it: that the run was cancelled is shown once, at its end.
    /// `stopped` are the tests that became known as stopped at the same time, `texts` those of the failed test of the note, and
    /// `failed` the failed attempts of a test that passed.
    /// Of the options it uses only `limit`, `output`, `raw` and `color`.
    pub(crate) fn of(
        note: &'a Note,
        stopped: &StoppedTests<'_>,
        texts: &'a FailureTexts<'a>,
        failed: &'a [ShownFailure<'a>],
        options: Options,
    ) -> Option<Entry<'a>> {
        let entry = match note {
            Note::Test(test) => match &test.outcome {
                TestOutcome::Passed { .. } => Entry::Passed(PassedTest { test, failed }),
                TestOutcome::Skipped { .. } => Entry::Skipped(test),
                TestOutcome::Stopped => Entry::Stopped(test),
                TestOutcome::Failed(failure) => {
                    Entry::Failed(ShownFailure::of(test, failure, texts, options))
                }
            },
            Note::Flaky(test) => Entry::Flaky(PassedTest { test, failed }),
            Note::Contradiction(Contradiction::Cancelled(_)) => return None,
            Note::Contradiction(contradiction) => {
                let problem = Problem::of_contradiction(contradiction, stopped, options.output);
                Entry::Problem(problem)
            }
            Note::NotRun(not_run) => {
                Entry::Problem(Problem::of_not_run(not_run, stopped, options.output))
            }
            Note::Suite(suite) => Entry::Suite(suite),
        };
        Some(entry)
    }
}
