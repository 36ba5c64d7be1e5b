//! A run and its sub-runs begin and end.

use super::{FIRST, LAST, are, event_of, is_instance, kind_of, owned, so_far};
use deodarsieve::{
    FinalRunStats, OwnedTestInstanceId, ReporterEvent, RunFinishedStats, StressCondition,
    StressIndex, StressProgress, StressRunStats, TestEventKind, TestInstanceId, TestList,
    TestsNotSeen,
};
use std::time::Duration;
use uuid::Uuid;

/// Two tests, of which one is to run.
static TESTS: TestList<'static> = TestList {
    instances: &[
        TestInstanceId {
            binary_id: "app::bin/app",
            test_name: "adds",
        },
        TestInstanceId {
            binary_id: "app::bin/app",
            test_name: "divides",
        },
    ],
    run_count: 1,
};

/// Returns true if they are those two.
fn are_tests(found: &TestList<'_>) -> bool {
    match found.instances {
        [adds, divides] => {
            is_instance(adds, "adds") && is_instance(divides, "divides") && found.run_count == 1
        }
        _ => false,
    }
}

/// Returns a run that is repeated for an hour, of which this many sub-runs are done.
fn an_hour(completed: u32) -> StressProgress {
    StressProgress::Time {
        total: Duration::from_secs(3_600),
        elapsed: Duration::from_secs(60),
        completed,
    }
}

/// Returns true if the run is repeated for an hour.
fn is_for_an_hour(found: &Option<StressCondition>) -> bool {
    *found == Some(StressCondition::Duration(Duration::from_secs(3_600)))
}

/// The statistics of a repeated run of three sub-runs, of which one failed.
const ONE_FAILED: RunFinishedStats = RunFinishedStats::Stress(StressRunStats {
    completed: StressIndex {
        current: 2,
        total: None,
    },
    success_count: 2,
    failed_count: 1,
    last_final_stats: FinalRunStats::Success,
});

fn begun() -> ReporterEvent<'static> {
    let profile_name = String::from("ci");
    let cli_args = owned(&["run", "--workspace"]);
    let kind = TestEventKind::RunStarted {
        test_list: &TESTS,
        run_id: Uuid::from_u128(7),
        profile_name,
        cli_args,
        stress_condition: Some(StressCondition::Duration(Duration::from_secs(3_600))),
    };
    event_of(kind)
}

/// Returns true if its fields are those that `begun` put in.
fn is_begun(event: &ReporterEvent<'_>) -> bool {
    let Some(TestEventKind::RunStarted {
        test_list,
        run_id,
        profile_name,
        cli_args,
        stress_condition,
    }) = kind_of(event)
    else {
        return false;
    };
    are_tests(test_list)
        && *run_id == Uuid::from_u128(7)
        && profile_name.as_str() == "ci"
        && are(cli_args, &["run", "--workspace"])
        && is_for_an_hour(stress_condition)
}

/// Tests that a rerun did not find, of which one is named.
fn not_seen() -> TestsNotSeen {
    let test = OwnedTestInstanceId {
        binary_id: String::from("app::bin/app"),
        test_name: String::from("was_renamed"),
    };
    TestsNotSeen {
        not_seen: vec![test],
        total_not_seen: 12,
    }
}

/// Returns true if it is that one of twelve.
fn are_not_seen(found: &TestsNotSeen) -> bool {
    match found.not_seen.as_slice() {
        [test] => {
            test.binary_id.as_str() == "app::bin/app"
                && test.test_name.as_str() == "was_renamed"
                && found.total_not_seen == 12
        }
        _ => false,
    }
}

/// Returns the end of a rerun that did not find some of its tests.
fn rerun_over() -> ReporterEvent<'static> {
    let kind = TestEventKind::RunFinished {
        run_id: Uuid::from_u128(8),
        start_time: LAST,
        elapsed: Duration::ZERO,
        run_stats: ONE_FAILED,
        outstanding_not_seen: Some(not_seen()),
    };
    event_of(kind)
}

/// Returns true if its fields are those that `rerun_over` put in.
fn is_rerun_over(event: &ReporterEvent<'_>) -> bool {
    let Some(TestEventKind::RunFinished {
        run_id,
        start_time,
        elapsed,
        run_stats,
        outstanding_not_seen: Some(tests),
    }) = kind_of(event)
    else {
        return false;
    };
    *run_id == Uuid::from_u128(8)
        && *start_time == LAST
        && elapsed.is_zero()
        && *run_stats == ONE_FAILED
        && are_not_seen(tests)
}

fn sub_run_begun() -> ReporterEvent<'static> {
    let progress = an_hour(2);
    event_of(TestEventKind::StressSubRunStarted { progress })
}

/// Returns true if its field is that which `sub_run_begun` put in.
fn is_sub_run_begun(event: &ReporterEvent<'_>) -> bool {
    match kind_of(event) {
        Some(TestEventKind::StressSubRunStarted { progress }) => *progress == an_hour(2),
        _ => false,
    }
}

fn sub_run_over() -> ReporterEvent<'static> {
    let kind = TestEventKind::StressSubRunFinished {
        progress: an_hour(3),
        sub_elapsed: Duration::from_millis(1_500),
        sub_stats: so_far(),
    };
    event_of(kind)
}

/// Returns true if its fields are those that `sub_run_over` put in.
fn is_sub_run_over(event: &ReporterEvent<'_>) -> bool {
    let Some(TestEventKind::StressSubRunFinished {
        progress,
        sub_elapsed,
        sub_stats,
    }) = kind_of(event)
    else {
        return false;
    };
    *progress == an_hour(3)
        && *sub_elapsed == Duration::from_millis(1_500)
        && *sub_stats == so_far()
}

fn over() -> ReporterEvent<'static> {
    let kind = TestEventKind::RunFinished {
        run_id: Uuid::from_u128(7),
        start_time: FIRST,
        elapsed: Duration::from_secs(59),
        run_stats: RunFinishedStats::Single(so_far()),
        outstanding_not_seen: None,
    };
    event_of(kind)
}

/// Returns true if its fields are those that `over` put in.
fn is_over(event: &ReporterEvent<'_>) -> bool {
    let Some(TestEventKind::RunFinished {
        run_id,
        start_time,
        elapsed,
        run_stats,
        outstanding_not_seen: None,
    }) = kind_of(event)
    else {
        return false;
    };
    *run_id == Uuid::from_u128(7)
        && *start_time == FIRST
        && *elapsed == Duration::from_secs(59)
        && *run_stats == RunFinishedStats::Single(so_far())
}

#[test]
fn runs_are_read_back() {
    assert!(is_begun(&begun()), "RunStarted");
    assert!(is_sub_run_begun(&sub_run_begun()), "StressSubRunStarted");
    assert!(is_sub_run_over(&sub_run_over()), "StressSubRunFinished");
    assert!(is_over(&over()), "RunFinished");
    assert!(is_rerun_over(&rerun_over()), "RunFinished of a rerun");
}
