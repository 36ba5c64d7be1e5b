// Made by tools/erase from crates/run_events_stats/src/stats/run.rt. Do not edit.
//! The counters of a whole run.

use crate::run_events_stats::stats::{FinishedUnit, RunStart, RunStats};

impl RunStats {
    /// Counts finished units, which can be in any order. The fields of `start` are copied.
    #[must_use]
    pub fn of_run(units: &[FinishedUnit<'_>], start: RunStart) -> RunStats {
        RunStats::count_units(units, start)
    }

    /// Counts finished units.
    fn count_units(units: &[FinishedUnit<'_>], start: RunStart) -> RunStats {
        let mut stats = RunStats {
            initial_run_count: start.initial_run_count,
            setup_scripts_initial_count: start.setup_scripts_initial_count,
            skipped: start.skipped,
            cancel_reason: start.cancel_reason,
            ..RunStats::default()
        };
        for unit in units {
            match unit {
                FinishedUnit::Script(script) => stats.raise_for_script(&script.result),
                FinishedUnit::Test(test) => stats.raise_for_test(&test.view()),
            }
        }
        stats
    }
}
