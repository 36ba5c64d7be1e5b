// Made by tools/erase from crates/run_events_results/src/levels/output.rt. Do not edit.
//! What a reporter shows of a finished test.

use crate::run_events_results::config::TestOutputDisplay;
use crate::run_events_results::levels::{
    FinalStatusLevel, OutputOnTestFinished, OutputStoreFinal, StatusLevel, StatusLevels,
};
use crate::run_events_results::results::{CancelReason, ExecutionResultDescription};

impl StatusLevels {
    /// Returns what a reporter shows of a test when it finishes, and what it stores for the end of
    /// the run.
    ///
    /// `display` is the reporter's setting for tests that succeeded if the last attempt succeeded, even
    /// of a flaky test that counts as failed, and otherwise its setting for failed tests. The defaults
    /// of nextest are `Never` and `Immediate`.
    ///
    /// The reporter writes a line if its status level is at least that of the test. It displays the
    /// output at once if `display` is immediate. It stores the test if `display` is final or its
    /// final level is at least that of the test, and then displays the output at the end if
    /// `display` is final. With a reason to cancel the run, it shows and stores less:
    ///
    /// - [`CancelReason::TestFailureImmediate`]: nothing of a test that was ended by `SIGTERM` or
    ///   with the Windows job object, which is how the runner ends a test;
    /// - [`CancelReason::Signal`]: output that was displayed at once is not displayed again at the
    ///   end;
    /// - [`CancelReason::Interrupt`] and [`CancelReason::SecondSignal`]: nothing of any test.
    ///
    /// The line does not depend on the reason.
    ///
    /// With a greater reason the reporter shows and stores no more than with a lesser one. The one
    /// exception is a test that the runner seems to have ended: it is hidden with
    /// `TestFailureImmediate`, but not with `GlobalTimeout` or `Signal`.
    #[must_use]
    pub fn compute_output_on_test_finished(
        &self,
        display: TestOutputDisplay,
        cancel_status: Option<CancelReason>,
        test_status_level: StatusLevel,
        test_final_status_level: FinalStatusLevel,
        execution_result: &ExecutionResultDescription,
    ) -> OutputOnTestFinished {
        self.output_of(
            display,
            cancel_status,
            test_status_level,
            test_final_status_level,
            execution_result,
        )
    }

    /// Returns what a reporter shows and stores, by the cases of the reason.
    fn output_of(
        &self,
        display: TestOutputDisplay,
        cancel_status: Option<CancelReason>,
        test_status_level: StatusLevel,
        test_final_status_level: FinalStatusLevel,
        execution_result: &ExecutionResultDescription,
    ) -> OutputOnTestFinished {
        let write_status_line = self.status_level >= test_status_level;
        let is_stored = self.is_stored(display, test_final_status_level);
        if is_stopped(cancel_status, execution_result) {
            return hidden(write_status_line);
        }
        match cancel_status {
            Some(CancelReason::Interrupt | CancelReason::SecondSignal) => hidden(write_status_line),
            Some(CancelReason::Signal) => OutputOnTestFinished {
                write_status_line,
                show_immediate: display.is_immediate(),
                store_final: stored(is_stored, is_only_final(display)),
            },
            None
            | Some(
                CancelReason::SetupScriptFailure
                | CancelReason::TestFailure
                | CancelReason::ReportError
                | CancelReason::OutputLimit
                | CancelReason::TestFailureImmediate
                | CancelReason::GlobalTimeout,
            ) => OutputOnTestFinished {
                write_status_line,
                show_immediate: display.is_immediate(),
                store_final: stored(is_stored, display.is_final()),
            },
        }
    }

    /// Returns true if a test of this level is listed at the end of the run.
    fn is_stored(&self, display: TestOutputDisplay, test_level: FinalStatusLevel) -> bool {
        display.is_final() || self.final_status_level >= test_level
    }
}

/// Returns no output, and the line if `write_status_line`.
fn hidden(write_status_line: bool) -> OutputOnTestFinished {
    OutputOnTestFinished {
        write_status_line,
        show_immediate: false,
        store_final: OutputStoreFinal::No,
    }
}

/// Returns what is stored of a test.
fn stored(is_stored: bool, display_output: bool) -> OutputStoreFinal {
    if is_stored {
        OutputStoreFinal::Yes { display_output }
    } else {
        OutputStoreFinal::No
    }
}

/// Returns true if output is displayed only at the end of the run.
fn is_only_final(display: TestOutputDisplay) -> bool {
    matches!(display, TestOutputDisplay::Final)
}

/// Returns true if the runner ended the test because the run stops at once after a failure.
fn is_stopped(
    cancel_status: Option<CancelReason>,
    execution_result: &ExecutionResultDescription,
) -> bool {
    cancel_status == Some(CancelReason::TestFailureImmediate)
        && execution_result.is_termination_failure()
}
