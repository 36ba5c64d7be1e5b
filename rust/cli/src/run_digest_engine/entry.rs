// Made by tools/erase from crates/run_digest_engine/src/entry.rt. Do not edit.
//! The lines after line 1.

use crate::run_digest_engine::parts::Parts;
use crate::run_digest_engine::units::{parse_script, parse_test};
use crate::run_digest_engine::words::parse_start;
use deodarsieve::ExecutionResultDescription;
use deodarsieve::FinishedTest;
use deodarsieve::RunStart;

/// A line after line 1.
#[derive(Clone)]
pub(crate) enum Entry {
    /// A finished setup script of the current run, with its result.
    Script(ExecutionResultDescription),

    /// A finished test of the current run.
    Test(FinishedTest),

    /// Another sub-run begins.
    SubRun(RunStart),
}

/// Parses a line after line 1.
pub(crate) fn parse_entry(line: &[u8]) -> Option<Entry> {
    match str::from_utf8(line) {
        Ok(text) => parse_words(Parts::new(text, ' ')),
        Err(_) => None,
    }
}

/// Parses the words of a line after line 1.
fn parse_words(mut words: Parts<'_>) -> Option<Entry> {
    match words.next() {
        Some("sub-run") => parse_start(words).map(Entry::SubRun),
        Some("script") => parse_script(words).map(Entry::Script),
        Some("test") => parse_test(words).map(Entry::Test),
        _ => None,
    }
}
