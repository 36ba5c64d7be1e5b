//! The kinds of notes that a report treats in its own way.

use deodarsieve_run::{Contradiction, Note, TestOutcome};

/// Returns true if a note comes after the others of its line: tests that were not run, and the numbers of a suite.
pub(super) fn comes_last(note: &Note) -> bool {
    match note {
        Note::NotRun(_) | Note::Suite(_) => true,
        Note::Test(_) | Note::Flaky(_) | Note::Contradiction(_) => false,
    }
}

/// Returns true if a note says that a test failed, or that lines contradict each other.
pub(super) fn is_failure(note: &Note) -> bool {
    match note {
        Note::Test(test) => matches!(test.outcome, TestOutcome::Failed(_)),
        Note::Contradiction(_) => !is_cancellation(note),
        Note::Flaky(_) | Note::NotRun(_) | Note::Suite(_) => false,
    }
}

/// Returns true if a note says that the run was cancelled, and that something did not end as it would have.
pub(super) fn is_cancellation(note: &Note) -> bool {
    matches!(note, Note::Contradiction(Contradiction::Cancelled(_)))
}

/// Returns true for a note of which a build that failed says more: no line is an event, or how the command ended.
pub(super) fn is_said_by_build(note: &Note) -> bool {
    matches!(
        note,
        Note::Contradiction(Contradiction::NoEvent { .. } | Contradiction::Command(_))
    )
}

/// Returns true for the last note of what the end of a file makes known at once: the numbers of a suite, a failure of
/// cargo, a file without events, or a command that failed.
pub(super) fn ends_part(note: &Note) -> bool {
    match note {
        Note::Suite(_) => true,
        Note::Contradiction(contradiction) => match contradiction {
            Contradiction::Cargo(_) | Contradiction::NoEvent { .. } | Contradiction::Command(_) => {
                true
            }
            Contradiction::EndedEarly { .. }
            | Contradiction::LastLine { .. }
            | Contradiction::StrayEnd { .. }
            | Contradiction::StraySuiteEnd { .. }
            | Contradiction::OutsideSuite { .. }
            | Contradiction::Damaged { .. }
            | Contradiction::Program(_)
            | Contradiction::Cancelled(_) => false,
        },
        Note::Test(_) | Note::Flaky(_) | Note::NotRun(_) => false,
    }
}
