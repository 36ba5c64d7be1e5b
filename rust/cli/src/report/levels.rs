//! What the text shows of a test, by the levels of the layer.

use crate::report::options::Options;
use deodarsieve::{
    ExecutionResultDescription, FinalStatusLevel, FinishedTest, OutputOnTestFinished, StatusLevel,
    StatusLevels, TestOutputDisplay,
};
use deodarsieve_run::{Finish, TestNote, finished_test};

/// Returns the levels of a report.
fn levels_of(options: Options) -> StatusLevels {
    StatusLevels {
        status_level: options.status_level,
        final_status_level: options.final_status_level,
    }
}

/// Returns a test that finished in this way, as the levels take it. A flaky test took several attempts.
fn leveled(finish: Finish, test: &TestNote) -> FinishedTest {
    let attempts = match finish {
        Finish::FlakyFailed => test.attempts.max(2),
        Finish::Passed | Finish::Failed | Finish::TimedOut => test.attempts,
    };
    finished_test(finish, attempts, test.slow)
}

/// Returns the level of a finished test at the end of the run.
pub(crate) fn final_level(finish: Finish, test: &TestNote) -> FinalStatusLevel {
    leveled(finish, test).view().final_status_level()
}

/// Returns what is shown of a finished test, and what is stored for the list at the end. If the run had been cancelled
/// when the test became known, the layer shows no more for a more severe reason.
pub(crate) fn finished_output(
    options: Options,
    finish: Finish,
    test: &TestNote,
) -> OutputOnTestFinished {
    let display = match finish {
        Finish::Passed => options.success_output,
        Finish::FlakyFailed | Finish::Failed | Finish::TimedOut => options.failure_output,
    };
    output_by(display, options, finish, test)
}

/// Returns what is shown of the failed attempts of a test that passed, and what is stored for the list at the end.
pub(crate) fn attempts_output(options: Options, test: &TestNote) -> OutputOnTestFinished {
    output_by(options.failure_output, options, Finish::Passed, test)
}

/// Returns what is shown and stored of a finished test, if its output is displayed so.
fn output_by(
    display: TestOutputDisplay,
    options: Options,
    finish: Finish,
    test: &TestNote,
) -> OutputOnTestFinished {
    let finished = leveled(finish, test);
    let view = finished.view();
    levels_of(options).compute_output_on_test_finished(
        display,
        test.cancel,
        view.status_level(),
        view.final_status_level(),
        view.result,
    )
}

/// Returns what is shown of a skipped test, and what is stored for the list at the end.
pub(crate) fn skipped_output(options: Options, test: &TestNote) -> OutputOnTestFinished {
    levels_of(options).compute_output_on_test_finished(
        TestOutputDisplay::Never,
        test.cancel,
        StatusLevel::Skip,
        FinalStatusLevel::Skip,
        &ExecutionResultDescription::Pass,
    )
}

/// Returns true if a test has a line when it ends: the line is written, or something is shown under it.
pub(crate) fn has_line(shows: OutputOnTestFinished) -> bool {
    shows.write_status_line || shows.show_immediate
}
