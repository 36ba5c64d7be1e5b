// Made by tools/erase from crates/run_digest_engine/src/units.rt. Do not edit.
//! The lines of finished units.

use crate::run_digest_engine::parts::Parts;
use crate::run_digest_engine::words::{parse_flags, parse_result};
use deodarsieve::FinishedTest;
use deodarsieve::{ExecutionResult, ExecutionResultDescription};

/// The greatest number of results of a test.
const MAX_RESULTS: usize = 100;

/// Parses the words after `script`.
pub(crate) fn parse_script(mut words: Parts<'_>) -> Option<ExecutionResultDescription> {
    let (Some(word), None) = (words.next(), words.next()) else {
        return None;
    };
    let result = parse_result(word)?;
    Some(ExecutionResultDescription::from_status(result, None))
}

/// Parses the results of a test, which are separated by commas and at most [`MAX_RESULTS`]. Returns the
/// last one and their number.
fn parse_results(list: &str) -> Option<(ExecutionResultDescription, usize)> {
    // Only the last result is described, because a description owns memory.
    // A text has at least one part, so the first result replaces this one.
    let mut last = ExecutionResult::Pass;
    let mut count = 0;
    let mut words = Parts::new(list, ',');
    while let Some(word) = words.next() {
        if count == MAX_RESULTS {
            return None;
        }
        last = parse_result(word)?;
        count += 1;
    }
    Some((ExecutionResultDescription::from_status(last, None), count))
}

/// Parses the words after `test`: the results of the attempts, and the flags.
pub(crate) fn parse_test(mut words: Parts<'_>) -> Option<FinishedTest> {
    let list = words.next()?;
    let (is_slow, flaky_result) = parse_flags(words)?;
    let (result, attempts) = parse_results(list)?;
    Some(FinishedTest {
        result,
        attempts,
        is_slow,
        flaky_result,
    })
}
