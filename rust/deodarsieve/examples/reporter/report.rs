//! The reporter's part: the text that it writes for each event.

use std::io::{self, Write};
use std::time::Duration;

use deodarsieve::{
    CancelReason, ExecuteStatus, ExecutionResultDescription, ExecutionStatuses, FinalRunStats,
    FinalStatusLevel, LiveSpec, OutputStoreFinal, ReporterEvent, RunFinishedStats, RunOutcome,
    RunStats, StatusLevel, StatusLevels, TestEvent, TestEventKind, TestInstanceId,
    TestOutputDisplay, UnitErrorDescription, UnitKind,
};

/// A finished test that is listed after the run.
struct Stored {
    level: FinalStatusLevel,
    line: String,
    errors: Option<String>,
}

/// Writes the lines of a run.
pub struct Reporter<'w, W: Write> {
    out: &'w mut W,
    levels: StatusLevels,
    cancel_status: Option<CancelReason>,
    stored: Vec<Stored>,
}

impl<'w, W: Write> Reporter<'w, W> {
    /// A reporter that writes a line for each test that passed or needs more attention, and lists
    /// those that were flaky or need more attention after the run.
    pub fn new(out: &'w mut W) -> Self {
        Reporter {
            out,
            levels: StatusLevels {
                status_level: StatusLevel::Pass,
                final_status_level: FinalStatusLevel::Flaky,
            },
            cancel_status: None,
            stored: Vec::new(),
        }
    }

    /// Writes the text for an event.
    pub fn report(&mut self, event: &ReporterEvent<'_>) -> io::Result<()> {
        let ReporterEvent::Test(event) = event else {
            return Ok(());
        };
        match &event.kind {
            TestEventKind::RunStarted { test_list, .. } => writeln!(
                self.out,
                "running {} tests, {} skipped",
                test_list.run_count,
                test_list.instances.len() - test_list.run_count,
            ),
            TestEventKind::SetupScriptFinished {
                script_id,
                run_status,
                ..
            } => {
                let label = run_status.result.as_static_str();
                let name = format!("setup {}", script_id.0);
                writeln!(self.out, "{}", line(label, run_status.time_taken, &name))
            }
            TestEventKind::RunBeginCancel {
                current_stats,
                running,
                ..
            } => self.cancelled(current_stats, *running),
            TestEventKind::RunFinished { run_stats, .. } => self.run_finished(event, run_stats),
            kind => self.report_test(kind),
        }
    }

    /// Writes the text for an event of a test. Events that this reporter does not show are ignored,
    /// and so are kinds that a later version adds.
    fn report_test(&mut self, kind: &TestEventKind<'_>) -> io::Result<()> {
        match kind {
            TestEventKind::TestSlow {
                test_instance,
                elapsed,
                ..
            } => {
                let line = line("> slow", *elapsed, &name_of(test_instance));
                self.status(StatusLevel::Slow, &line)
            }
            TestEventKind::TestAttemptFailedWillRetry {
                test_instance,
                run_status,
                ..
            } => {
                let label = label_of(run_status);
                let line = line(&label, run_status.time_taken, &name_of(test_instance));
                self.status(StatusLevel::Retry, &line)
            }
            TestEventKind::TestFinished {
                test_instance,
                success_output,
                failure_output,
                run_statuses,
                ..
            } => self.test_finished(
                test_instance,
                run_statuses,
                *success_output,
                *failure_output,
            ),
            _ => Ok(()),
        }
    }

    /// Writes a line if the reporter shows lines of this level.
    fn status(&mut self, level: StatusLevel, line: &str) -> io::Result<()> {
        if self.levels.status_level >= level {
            writeln!(self.out, "{line}")?;
        }
        Ok(())
    }

    /// Writes the line and the errors of a finished test, and stores the test for the list at the
    /// end, as the levels decide.
    fn test_finished(
        &mut self,
        test: &TestInstanceId<'_>,
        statuses: &ExecutionStatuses<LiveSpec>,
        success_output: TestOutputDisplay,
        failure_output: TestOutputDisplay,
    ) -> io::Result<()> {
        let description = statuses.describe();
        let last = description.last_status();
        let display = if description.is_success_for_output() {
            success_output
        } else {
            failure_output
        };
        let shown = self.levels.compute_output_on_test_finished(
            display,
            self.cancel_status,
            description.status_level(),
            description.final_status_level(),
            &last.result,
        );
        let line = line(&label_of(last), last.time_taken, &name_of(test));
        if shown.write_status_line {
            writeln!(self.out, "{line}")?;
        }
        if shown.show_immediate {
            write!(self.out, "{}", errors_of(last).unwrap_or_default())?;
        }
        if let OutputStoreFinal::Yes { display_output } = shown.store_final {
            self.stored.push(Stored {
                level: description.final_status_level(),
                line,
                errors: errors_of(last).filter(|_| display_output),
            });
        }
        Ok(())
    }

    /// Writes the reason to cancel the run, and remembers it: less is shown of the tests that still
    /// end.
    fn cancelled(&mut self, stats: &RunStats, running: usize) -> io::Result<()> {
        self.cancel_status = stats.cancel_reason;
        let reason = stats
            .cancel_reason
            .map_or("unknown", CancelReason::to_static_str);
        writeln!(
            self.out,
            "cancelling due to {reason} (tests still running: {running})"
        )
    }

    /// Sums the run up, and lists the stored tests. Those that need the most attention come last, as
    /// the end of a terminal is read first.
    fn run_finished(&mut self, event: &TestEvent<'_>, run: &RunFinishedStats) -> io::Result<()> {
        writeln!(self.out, "----")?;
        if let RunFinishedStats::Single(stats) = run {
            writeln!(
                self.out,
                "{:>8.3}s {}",
                event.elapsed.as_secs_f64(),
                counts_of(stats)
            )?;
        }
        self.stored
            .sort_by_key(|stored| std::cmp::Reverse(stored.level));
        for stored in &self.stored {
            writeln!(self.out, "{}", stored.line)?;
            write!(self.out, "{}", stored.errors.as_deref().unwrap_or_default())?;
        }
        writeln!(self.out, "{}", summary_of(run.final_stats()))
    }
}

/// Returns a line with a label, a time and a name.
fn line(label: &str, time: Duration, name: &str) -> String {
    format!("{label:>12} [{:>7.3}s] {name}", time.as_secs_f64())
}

/// Returns the full name of a test.
fn name_of(test: &TestInstanceId<'_>) -> String {
    format!("{} {}", test.binary_id, test.test_name)
}

/// Returns the result of an attempt in words, with its number if there may be others.
fn label_of(status: &ExecuteStatus<LiveSpec>) -> String {
    let label = match (&status.result, status.is_slow) {
        (ExecutionResultDescription::Pass, true) => "slow",
        (result, _) => result.as_static_str(),
    };
    if status.retry_data.total_attempts > 1 {
        format!("try {} {label}", status.retry_data.attempt)
    } else {
        String::from(label)
    }
}

/// Returns the errors of an attempt as indented lines, or `None` if it had none.
fn errors_of(status: &ExecuteStatus<LiveSpec>) -> Option<String> {
    let description = UnitErrorDescription::new(UnitKind::Test, &status.output);
    let errors = description.all_error_list()?;
    let text: Vec<_> = errors.iter().map(ToString::to_string).collect();
    Some(
        text.join("\n")
            .lines()
            .map(|line| format!("    {line}\n"))
            .collect(),
    )
}

/// Returns the counters that are not zero, with their names.
fn counts_of(stats: &RunStats) -> String {
    let counts = [
        (stats.passed, "passed"),
        (stats.flaky, "flaky"),
        (stats.passed_slow, "slow"),
        (stats.leaky, "leaky"),
        (stats.failed_count(), "failed"),
        (stats.skipped, "skipped"),
    ];
    let parts: Vec<_> = counts
        .iter()
        .filter(|(count, _)| *count > 0)
        .map(|(count, label)| format!("{count} {label}"))
        .collect();
    format!(
        "{} of {} tests run: {}",
        stats.finished_count,
        stats.initial_run_count,
        parts.join(", ")
    )
}

/// Returns the summary of a run and the exit status for it.
fn summary_of(stats: FinalRunStats) -> String {
    let (label, status) = match RunOutcome::from_final_stats(stats) {
        RunOutcome::Success => ("success", 0),
        RunOutcome::NoTestsRun => ("no tests run", 4),
        RunOutcome::Cancelled { .. } => ("cancelled", 100),
        RunOutcome::Failed { .. } => ("failed", 100),
    };
    format!("the run is over: {label} (exit status {status})")
}
