//! Prints the failed tests, the contradictions and the outcome of a run that comes from standard input:
//! `cargo run --example failed_tests <run.jsonl`.

use std::error::Error;
use std::io::{self, BufRead, Write};
use std::process::ExitCode;

use deodarsieve_run::deodarsieve::TestOutputErrorSlice;
use deodarsieve_run::{
    Failure, FailureKind, Line, Note, TestNote, TestOutcome, TestRun, failed_count,
};

/// The time in microseconds from which on a test is slow.
const SLOW: u64 = 60_000_000;

/// Reads a run, and writes its failed tests, its contradictions and its outcome. Returns the exit status.
///
/// Fails if the input or the output does, or if a counter of the run is full.
pub fn report(input: impl BufRead, output: &mut impl Write) -> Result<u8, Box<dyn Error>> {
    let mut run = TestRun::new(SLOW);
    // Lines need not be UTF-8, so `BufRead::lines` would refuse some of them.
    for line in input.split(b'\n') {
        write_notes(&run.on_line(&Line::read(&line?))?, output)?;
    }
    let finished = run.finish(None, false)?;
    write_notes(&finished.notes, output)?;
    let end = finished.end;
    writeln!(
        output,
        "{} passed, {} failed, {} skipped, {} not run: {:?}",
        end.stats.passed,
        failed_count(&end.stats),
        end.skipped,
        end.not_run,
        end.outcome
    )?;
    Ok(finished.status)
}

/// Writes the failed tests and the contradictions among notes.
fn write_notes(notes: &[Note], output: &mut impl Write) -> io::Result<()> {
    for note in notes {
        match note {
            Note::Test(test) => {
                if let TestOutcome::Failed(failure) = &test.outcome {
                    write_failure(test, failure, output)?;
                }
            }
            Note::Contradiction(contradiction) => {
                writeln!(output, "contradiction: {contradiction:?}")?
            }
            Note::Flaky(_) | Note::NotRun(_) | Note::Suite(_) => {}
        }
    }
    Ok(())
}

/// Writes a failed test, and the part of its output that explains the failure.
fn write_failure(test: &TestNote, failure: &Failure, output: &mut impl Write) -> io::Result<()> {
    let word = match failure.kind {
        FailureKind::Failed | FailureKind::WithoutEnd | FailureKind::Flaky => "failed",
        FailureKind::TimedOut => "timed out",
        FailureKind::Crashed(_) => "crashed",
    };
    let suite = test.suite.as_ref().map_or("no suite", |name| name.as_str());
    writeln!(output, "{word}: {} ({suite})", test.name)?;
    let captured = failure.stdout.as_deref().map(str::as_bytes);
    // Standard output and standard error are one text, so it is passed as both.
    let explanation = TestOutputErrorSlice::heuristic_extract(captured, captured);
    if let Some(explanation) = explanation {
        for line in explanation.to_string().lines() {
            writeln!(output, "    {line}")?;
        }
    }
    Ok(())
}

fn main() -> Result<ExitCode, Box<dyn Error>> {
    let status = report(io::stdin().lock(), &mut io::stdout().lock())?;
    Ok(ExitCode::from(status))
}
