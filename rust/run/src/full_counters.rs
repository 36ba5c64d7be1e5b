//! What happens if a counter is at its maximum. No input is long enough for that, so these tests add the numbers of
//! whole suites.

use crate::{Note, RunError, RunStats, SuiteNote, TestRun};

/// The numbers of a suite with no tests.
fn no_tests() -> SuiteNote {
    SuiteNote {
        name: None,
        stats: RunStats::default(),
        skipped: 0,
        not_run: 0,
        crashed: 0,
        time: None,
    }
}

/// The numbers of a suite in which this many tests passed.
fn passed(count: usize) -> SuiteNote {
    SuiteNote {
        stats: RunStats {
            finished_count: count,
            passed: count,
            ..RunStats::default()
        },
        ..no_tests()
    }
}

/// Adds two suites to a run, and returns the result of the second. The first one must fit.
fn added(first: SuiteNote, second: SuiteNote) -> Result<TestRun, RunError> {
    let mut run = TestRun::new(0);
    let fits = run.learn_note(&Note::Suite(first));
    assert_eq!(fits, Ok(()));
    run.learn_note(&Note::Suite(second)).map(|()| run)
}

#[test]
fn the_greatest_number_of_passed_tests_fits_and_one_more_is_an_error() {
    let run = added(passed(usize::MAX - 1), passed(1)).expect("the sum fits");
    assert_eq!(run.end().stats.passed, usize::MAX);
    assert_eq!(
        added(passed(usize::MAX - 1), passed(2)).map(drop),
        Err(RunError::CounterFull)
    );
}

#[test]
fn each_sum_of_suites_is_checked() {
    let crashed = |crashed| SuiteNote {
        crashed,
        ..no_tests()
    };
    let skipped = |skipped| SuiteNote {
        skipped,
        ..no_tests()
    };
    let not_run = |not_run| SuiteNote {
        not_run,
        ..no_tests()
    };
    for (first, second) in [
        (crashed(usize::MAX), crashed(1)),
        (skipped(u128::MAX), skipped(1)),
        (not_run(u128::MAX), not_run(1)),
    ] {
        assert_eq!(added(first, second).map(drop), Err(RunError::CounterFull));
    }
}

#[test]
fn the_sum_of_times_stops_at_the_greatest_number() {
    let time = |time| SuiteNote {
        time: Some(time),
        ..no_tests()
    };
    let run = added(time(u64::MAX - 1), time(2)).expect("times are no counters");
    assert_eq!(run.end().time, Some(u64::MAX));
}
