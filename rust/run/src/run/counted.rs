// Made by tools/erase from crates/test_report_run/src/counted.rt. Do not edit.
//! Tests that finished, and the statistics.

use crate::notes::finish::{Finish, finished_test};
use deodarsieve::{CounterFull, RunStats};

/// Adds a test that finished to the statistics. Fails if a counter is full, and changes nothing then.
pub(crate) fn count(
    stats: &mut RunStats,
    finish: Finish,
    attempts: usize,
    is_slow: bool,
) -> Result<(), CounterFull> {
    let test = finished_test(finish, attempts, is_slow);
    stats.try_on_test_view(&test.view())
}
