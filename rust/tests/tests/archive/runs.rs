//! Generated runs: counters, lists of finished units, lists of sub-runs, and repeated runs.

use crate::generator::Generator;
use deodarsieve::{
    ExecutionResultDescription, FinalRunStats, RunOutcome, RunStats, StressCount, StressIndex,
    StressProgress, StressRunStats, TestView,
};
use deodarsieve_archive::codes::{
    FLAKY_RESULTS, OUTCOMES, REASONS, STRESS_FINALS, code_of, results,
};
use deodarsieve_archive::sys::{self, COUNTER_FULL, OK, written};
use deodarsieve_tests::named::counters_by;
use std::num::NonZero;
use std::time::Duration;

const SEED: u64 = 2;

/// The number of generated lists of units.
const COUNT: usize = 1_000_000;

/// Returns a counter: most are small, and a few are full or nearly so.
fn counter(generator: &mut Generator) -> usize {
    match generator.below(64) {
        0 => usize::MAX - generator.below(3),
        1 => generator.number() as usize,
        2..16 => generator.below(4),
        _ => 0,
    }
}

/// Returns counters with any values.
fn counters(generator: &mut Generator) -> RunStats {
    let cancel_reason = *generator.pick(REASONS);
    RunStats {
        cancel_reason,
        ..counters_by(|_| counter(generator))
    }
}

/// A run in both libraries.
#[derive(Debug)]
struct Run {
    stats: RunStats,
    archived: sys::RunStats,
}

impl Run {
    /// Returns the run with these counters.
    fn new(stats: RunStats) -> Self {
        let archived = (&stats).into();
        Self { stats, archived }
    }

    /// Counts a test in both libraries, and compares the counters. Returns true if none was full.
    fn count_test(&mut self, test: &TestView<'_>) -> bool {
        let has_room = self.stats.can_count_view(test);
        if has_room {
            self.stats.on_test_view(test);
        }
        let status = sys::deodarsieve_run_stats_count_test(&mut self.archived, &test.into());
        self.compare_counters(has_room, status);
        has_room
    }

    /// Counts a setup script in both libraries, and compares the counters. Returns true if none was
    /// full.
    fn count_script(&mut self, script: &ExecutionResultDescription) -> bool {
        let has_room = self.stats.can_count_script_result(script);
        if has_room {
            self.stats.on_script_result(script);
        }
        let status = sys::deodarsieve_run_stats_count_script(&mut self.archived, &script.into());
        self.compare_counters(has_room, status);
        has_room
    }

    /// Compares the counters after a unit, and the status that the library returned.
    fn compare_counters(&self, has_room: bool, status: u32) {
        let expected = if has_room { OK } else { COUNTER_FULL };
        let counters = sys::RunStats::from(&self.stats);
        assert_eq!((counters, expected), (self.archived, status));
    }

    /// Compares the results that depend only on the counters, and returns their summary.
    fn compare_summary(&self) -> FinalRunStats {
        let stats = &self.stats;
        let counts = stats.failed_counts_fit().then(|| sys::FailedCounts {
            tests: stats.failed_count(),
            setup_scripts: stats.failed_setup_script_count(),
        });
        let archived =
            written(|answer| sys::deodarsieve_run_stats_failed_counts(&self.archived, answer));
        assert_eq!(counts.ok_or(COUNTER_FULL), archived, "{stats:?}");
        let archived =
            written(|answer| sys::deodarsieve_run_stats_has_failures(&self.archived, answer));
        assert_eq!(Ok(stats.has_failures()), archived, "{stats:?}");
        let summary = stats.summarize_final();
        let archived =
            written(|answer| sys::deodarsieve_run_stats_summarize(&self.archived, answer));
        assert_eq!(Ok(summary.into()), archived, "{stats:?}");
        summary
    }
}

/// Counts some units in a run, of which three in four are tests, and returns how many did not fit.
fn count_units(
    generator: &mut Generator,
    run: &mut Run,
    results: &[ExecutionResultDescription],
) -> usize {
    let mut refused = 0;
    for _ in 0..generator.below(10) {
        let result = generator.pick(results);
        let is_counted = if generator.one_in(4) {
            run.count_script(result)
        } else {
            let view = TestView::new(result)
                .with_attempts(generator.below(4))
                .with_slow(generator.one_in(2))
                .with_flaky_result(*generator.pick(&FLAKY_RESULTS));
            run.count_test(&view)
        };
        refused += usize::from(!is_counted);
    }
    refused
}

/// Compares the outcome of sub-runs.
fn compare_outcome(sub_runs: &[FinalRunStats]) {
    let outcome = code_of(&OUTCOMES, RunOutcome::of_sub_runs(sub_runs));
    let summaries: Vec<_> = sub_runs
        .iter()
        .copied()
        .map(sys::FinalStats::from)
        .collect();
    let archived = written(|answer| sys::outcome_of_sub_runs(&summaries, answer));
    assert_eq!(Ok(outcome), archived, "{sub_runs:?}");
}

/// Compares the summary of a repeated run.
fn compare_repeated(failed_count: u32, last_final_stats: FinalRunStats) {
    let stats = StressRunStats {
        completed: StressIndex {
            current: 0,
            total: None,
        },
        success_count: 1,
        failed_count,
        last_final_stats,
    };
    let summary = code_of(&STRESS_FINALS, stats.summarize_final());
    let last = last_final_stats.into();
    let archived = written(|answer| {
        sys::deodarsieve_final_stats_summarize_stress(&last, failed_count, answer)
    });
    assert_eq!(Ok(summary), archived, "{stats:?}");
}

#[test]
fn generated_lists_of_units() {
    let mut generator = Generator::new(SEED);
    let results: Vec<_> = [-1, 15, 101].into_iter().flat_map(results).collect();
    let mut sub_runs = Vec::new();
    let mut refused = 0;
    for _ in 0..COUNT {
        let mut run = Run::new(counters(&mut generator));
        refused += count_units(&mut generator, &mut run, &results);
        let summary = run.compare_summary();
        compare_repeated(generator.below(2) as u32, summary);
        sub_runs.push(summary);
        compare_outcome(&sub_runs);
        sub_runs.truncate(generator.below(8));
    }
    assert!(refused > COUNT / 100, "{refused}");
}

#[test]
fn no_sub_runs() {
    compare_outcome(&[]);
}

/// Returns a duration: most are short, and a few are as long as can be.
fn duration(generator: &mut Generator) -> Duration {
    let seconds = *generator.pick(&[0, 0, 1, 2, u64::MAX]);
    let nanoseconds = *generator.pick(&[0, 0, 1, 500_000_000, 999_999_999]);
    Duration::new(seconds, nanoseconds)
}

/// Returns the progress of a run that is repeated a number of times, without end, or for a time.
fn progress(generator: &mut Generator) -> StressProgress {
    let elapsed = duration(generator);
    let completed = *generator.pick(&[0, 1, 2, u32::MAX]);
    if generator.one_in(2) {
        return StressProgress::Time {
            total: duration(generator),
            elapsed,
            completed,
        };
    }
    let count = NonZero::new(*generator.pick(&[0, 1, 2, 3, u32::MAX]));
    StressProgress::Count {
        total: count.map_or(StressCount::Infinite, |count| StressCount::Count { count }),
        elapsed,
        completed,
    }
}

#[test]
fn rest_of_repeated_runs() {
    let mut generator = Generator::new(SEED);
    for _ in 0..20_000 {
        let progress = progress(&mut generator);
        let remaining = progress.remaining();
        let archived =
            written(|answer| sys::deodarsieve_stress_progress_remaining(&progress.into(), answer));
        assert_eq!(Ok(remaining.into()), archived, "{progress:?}");
    }
}
