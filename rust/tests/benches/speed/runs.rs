//! Counters, levels and summaries of runs, in which every second test or sub-run fails.

use crate::Row;
use crate::inputs::share;
use crate::timing::Work;
use deodarsieve::{
    ExecutionResultDescription, ExecutionStatuses, FailureDescription, FinalRunStats, FinishedUnit,
    FlakyResult, LiveSpec, RunFailureStep, RunOutcome, RunStart, RunStats, RunStatsFailureKind,
    StatusLevel, TestView,
};
#[cfg(feature = "archive")]
use deodarsieve_archive::sys;
use deodarsieve_tests::fixtures::{EXIT_ONE, PASS, finished_test};
use std::hint::black_box;
use std::rc::Rc;

const START: RunStart = RunStart {
    initial_run_count: 0,
    setup_scripts_initial_count: 0,
    skipped: 0,
    cancel_reason: None,
};

const FAILED_RUN: FinalRunStats = FinalRunStats::Failed {
    kind: RunStatsFailureKind::SetupScript,
};

static PASSED: ExecutionResultDescription = ExecutionResultDescription::Pass;

static FAILED: ExecutionResultDescription = ExecutionResultDescription::Fail {
    failure: FailureDescription::ExitCode { code: 1 },
    leaked: false,
};

/// Returns the counters of a run of `count` tests.
fn counters(count: usize) -> RunStats {
    RunStats {
        finished_count: count,
        passed: count / 2,
        failed: count / 2,
        ..RunStats::default()
    }
}

/// Returns `pairs` pairs of two values.
fn repeated<T: Copy>(pair: [T; 2], pairs: usize) -> Rc<[T]> {
    pair.repeat(pairs).into()
}

/// Returns the count of finished units. They are never freed, since they are borrowed as long as
/// the work lives.
fn units(size: usize) -> Work {
    let test = |result| finished_test(&[], result, false, FlakyResult::Pass);
    let tests: Vec<_> = (0..share(size, 500_000))
        .flat_map(|_| [test(PASS), test(EXIT_ONE)])
        .collect();
    let tests: &'static [ExecutionStatuses<LiveSpec>] = tests.leak();
    let units: Vec<_> = tests.iter().map(FinishedUnit::Test).collect();
    Work {
        call: Box::new(move || {
            let stats = RunStats::of_run(black_box(&units), START);
            assert_eq!(stats, counters(units.len()));
        }),
        archived: None,
        pass: Box::new(move || {
            let results = black_box(tests)
                .iter()
                .map(|test| &test.last_status().result);
            let failed = results.filter(|result| !result.is_success()).count();
            assert_eq!(failed, tests.len() / 2);
        }),
    }
}

/// Returns the views of tests.
fn views(size: usize) -> Rc<[TestView<'static>]> {
    let pair = [TestView::new(&PASSED), TestView::new(&FAILED)];
    repeated(pair, share(size, 500_000))
}

/// Returns one pass over the views of tests.
fn pass_over_views(views: Rc<[TestView<'static>]>) -> Box<dyn FnMut()> {
    Box::new(move || {
        let failed = black_box(&views)
            .iter()
            .filter(|view| !view.result.is_success());
        assert_eq!(failed.count(), views.len() / 2);
    })
}

/// Returns the count of tests by their views.
fn counted_views(size: usize) -> Work {
    let views = views(size);
    Work {
        archived: archived!({
            let tests: Vec<_> = views.iter().map(sys::TestView::from).collect();
            move || {
                let mut stats = sys::RunStats::default();
                for test in black_box(&tests) {
                    assert_eq!(
                        sys::deodarsieve_run_stats_count_test(&mut stats, test),
                        sys::OK
                    );
                }
                assert_eq!(stats, (&counters(tests.len())).into());
            }
        }),
        pass: pass_over_views(Rc::clone(&views)),
        call: Box::new(move || {
            let mut stats = RunStats::default();
            black_box(&views)
                .iter()
                .for_each(|view| stats.on_test_view(view));
            assert_eq!(stats, counters(views.len()));
        }),
    }
}

/// Returns the status levels of tests.
fn levels(size: usize) -> Work {
    let views = views(size);
    Work {
        archived: archived!({
            let tests: Vec<_> = views.iter().map(sys::TestView::from).collect();
            move || {
                let level = |test| {
                    sys::written(|answer| sys::deodarsieve_test_view_status_level(test, answer))
                };
                let failed = black_box(&tests).iter().filter(|test| level(test) == Ok(1));
                assert_eq!(failed.count(), tests.len() / 2);
            }
        }),
        pass: pass_over_views(Rc::clone(&views)),
        call: Box::new(move || {
            let is_failure = |view: &&TestView<'_>| view.status_level() == StatusLevel::Fail;
            let failed = black_box(&views).iter().filter(is_failure);
            assert_eq!(failed.count(), views.len() / 2);
        }),
    }
}

/// Returns the summaries of counters.
fn summaries(size: usize) -> Work {
    let failed = RunStats {
        setup_scripts_failed: 1,
        ..counters(4)
    };
    let passed = RunStats {
        passed: 4,
        failed: 0,
        ..counters(4)
    };
    let runs = repeated([passed, failed], share(size, 50_000));
    let read = Rc::clone(&runs);
    Work {
        archived: archived!({
            let runs: Vec<_> = runs.iter().map(sys::RunStats::from).collect();
            move || {
                let summary =
                    |run| sys::written(|answer| sys::deodarsieve_run_stats_summarize(run, answer));
                let failed = sys::FinalStats::from(FAILED_RUN);
                let failed = black_box(&runs)
                    .iter()
                    .filter(|run| summary(run) == Ok(failed));
                assert_eq!(failed.count(), runs.len() / 2);
            }
        }),
        pass: Box::new(move || {
            let failed = black_box(&read).iter().filter(|run| run.has_failures());
            assert_eq!(failed.count(), read.len() / 2);
        }),
        call: Box::new(move || {
            let failed = black_box(&runs)
                .iter()
                .filter(|run| run.summarize_final() == FAILED_RUN);
            assert_eq!(failed.count(), runs.len() / 2);
        }),
    }
}

/// Returns the outcome of sub-runs.
fn sub_runs(size: usize) -> Work {
    let runs = repeated([FinalRunStats::Success, FAILED_RUN], share(size, 500_000));
    let read = Rc::clone(&runs);
    let expected = RunOutcome::Failed {
        step: RunFailureStep::SetupScript,
    };
    Work {
        archived: archived!({
            let runs: Vec<_> = runs.iter().copied().map(sys::FinalStats::from).collect();
            move || {
                let runs = black_box(runs.as_slice());
                let outcome = sys::written(|answer| sys::outcome_of_sub_runs(runs, answer));
                assert_eq!(outcome, Ok(5));
            }
        }),
        pass: Box::new(move || {
            let failed = black_box(&read).iter().filter(|run| **run == FAILED_RUN);
            assert_eq!(failed.count(), read.len() / 2);
        }),
        call: Box::new(move || {
            assert_eq!(RunOutcome::of_sub_runs(black_box(&runs)), expected);
        }),
    }
}

/// Returns the rows of runs.
pub fn rows() -> Vec<Row> {
    vec![
        Row::new("views", counted_views),
        Row::new("levels", levels),
        Row::new("summaries", summaries),
        Row::new("sub-runs", sub_runs),
        Row::new("units", units),
    ]
}
