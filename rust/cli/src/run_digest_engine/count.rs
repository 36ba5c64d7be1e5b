// Made by tools/erase from crates/run_digest_engine/src/count.rt. Do not edit.
//! Counting runs, from the lines of their units to the reports of their counters.

use crate::program_io::device::{Sink, Source};
use crate::program_io::transfer::{read_all, write_all};
use crate::run_digest_engine::fault::Fault;
use crate::run_digest_engine::lines::stats_in;
use crate::run_digest_engine::report::reports;
use deodarsieve::RunOutcome;

/// Returns the text for an input, and whether the outcome of its runs is `Success`.
fn digest(bytes: &[u8]) -> Result<(String, bool), Fault> {
    let runs = stats_in(bytes)?;
    let (text, outcome) = reports(runs.as_slice());
    Ok((text, outcome == RunOutcome::Success))
}

/// Reads the finished units of a run, or of the sub-runs of a repeated run, from `source`, and writes
/// a report of each run to `sink`. Returns true if the outcome of all runs is `Success`.
///
/// A report is three lines: the numbers of the tests, those of the setup scripts, and the summary. If
/// there is more than one run, a line with their outcome follows.
///
/// The input is at most 10,000 lines, which end with `\n` or `\r\n`. The last line end may be
/// missing.
///
/// - Line 1 is `run TESTS SCRIPTS REASON`: how many tests and scripts were to run, each at most
///   1,000,000, and why the run was cancelled, or `-`.
/// - A line `sub-run TESTS SCRIPTS REASON` begins another sub-run.
/// - A line `script R` is a finished setup script with its result.
/// - A line `test R,R,..` is a finished test with the results of its 1 to 100 attempts. Then there can
///   be ` slow` for a slow last attempt, and then ` flaky-fail` for the setting that fails flaky tests.
///
/// Neither device may have failed before. All input is read first, then the whole text is written,
/// then the sink is flushed. After a fault nothing was written, except that after [`Fault::Write`]
/// some first bytes of the text may have been written.
///
/// - [`Fault::Read`] if and only if the source fails, and [`Fault::Write`] if and only if the sink
///   fails.
/// - [`Fault::BadLine`] with the number of the first bad line: a line that is not allowed there, line
///   10,001, or line 1 if there is none.
pub fn count<R: Source, W: Sink>(source: &mut R, sink: &mut W) -> Result<bool, Fault> {
    let bytes = read_all(source)?;
    let (text, success) = digest(bytes.as_slice())?;
    write_all(sink, text.as_bytes())?;
    Ok(success)
}
