// Made by tools/erase from crates/run_digest_engine/src/lines.rt. Do not edit.
//! Counting the runs of an input.

use crate::run_digest_engine::entry::{Entry, parse_entry};
use crate::run_digest_engine::fault::Fault;
use crate::run_digest_engine::parts::Parts;
use crate::run_digest_engine::words::parse_start;
use bstr::ByteSlice;
use deodarsieve::{RunStart, RunStats};

/// The greatest number of lines of an input.
const MAX_LINES: usize = 10_000;

/// Parses line 1.
fn parse_first(line: &[u8]) -> Option<RunStart> {
    let Ok(text) = str::from_utf8(line) else {
        return None;
    };
    let mut words = Parts::new(text, ' ');
    match words.next() {
        Some("run") => parse_start(words),
        _ => None,
    }
}

/// Counts a line, and returns the statistics of the current run. If another sub-run begins, those of
/// the run before it are pushed to `runs`.
fn count_entry(runs: &mut Vec<RunStats>, mut stats: RunStats, entry: Entry) -> RunStats {
    match entry {
        Entry::Script(result) => stats.on_script_result(&result),
        Entry::Test(test) => stats.on_test_view(&test.view()),
        Entry::SubRun(start) => {
            runs.push(stats);
            return RunStats::of_run(&[], start);
        }
    }
    stats
}

/// Returns the statistics of the runs of an input, which are at least one. The error is the first bad
/// line.
pub(crate) fn stats_in(bytes: &[u8]) -> Result<Vec<RunStats>, Fault> {
    let mut lines = bytes.lines();
    let Some(first) = lines.next() else {
        return Err(Fault::BadLine { number: 1 });
    };
    let Some(start) = parse_first(first) else {
        return Err(Fault::BadLine { number: 1 });
    };
    let mut runs = Vec::new();
    let mut stats = RunStats::of_run(&[], start);
    let mut number = 2;
    while let Some(line) = lines.next() {
        if number > MAX_LINES {
            return Err(Fault::BadLine { number });
        }
        let Some(entry) = parse_entry(line) else {
            return Err(Fault::BadLine { number });
        };
        stats = count_entry(&mut runs, stats, entry);
        number += 1;
    }
    runs.push(stats);
    Ok(runs)
}
