//! Tests that are counted by views, from a caller that does not keep attempts.

use deodarsieve::{
    CounterFull, ExecutionResultDescription, FinalStatusLevel, FlakyResult, RunStats, StatusLevel,
    TestView,
};
use deodarsieve_tests::fixtures::{PASS, finished_script, finished_test};

#[test]
fn a_view_is_counted_and_has_levels() {
    let passed = ExecutionResultDescription::Pass;
    let test = TestView::new(&passed)
        .with_attempts(2)
        .with_slow(true)
        .with_flaky_result(FlakyResult::Pass);
    assert_eq!(test.status_level(), StatusLevel::Retry);
    assert_eq!(test.final_status_level(), FinalStatusLevel::Flaky);
    let mut stats = RunStats::default();
    assert!(stats.can_count_view(&test));
    stats.on_test_view(&test);
    assert!(stats.can_count_script_result(&passed));
    stats.on_script_result(&passed);
    let wanted = RunStats {
        finished_count: 1,
        passed: 1,
        passed_slow: 1,
        flaky: 1,
        setup_scripts_finished_count: 1,
        setup_scripts_passed: 1,
        ..RunStats::default()
    };
    assert_eq!(stats, wanted);
    let full = RunStats {
        flaky: usize::MAX,
        setup_scripts_passed: usize::MAX,
        ..stats
    };
    assert!(!full.can_count_view(&test));
    assert!(!full.can_count_script_result(&passed));
}

#[test]
fn a_unit_is_counted_if_there_is_room() {
    let script = finished_script(PASS);
    let test = finished_test(&[], PASS, false, FlakyResult::Pass);
    let room_for_one = RunStats {
        passed: usize::MAX - 1,
        setup_scripts_passed: usize::MAX - 1,
        ..RunStats::default()
    };
    let full = RunStats {
        finished_count: 1,
        passed: usize::MAX,
        setup_scripts_finished_count: 1,
        setup_scripts_passed: usize::MAX,
        ..RunStats::default()
    };
    let mut stats = room_for_one;
    assert_eq!(stats.try_on_test_finished(&test), Ok(()));
    assert_eq!(stats.try_on_setup_script_finished(&script), Ok(()));
    assert_eq!(stats, full);
    assert_eq!(stats.try_on_test_finished(&test), Err(CounterFull));
    assert_eq!(
        stats.try_on_setup_script_finished(&script),
        Err(CounterFull)
    );
    assert_eq!(stats.try_on_test_view(&test.view()), Err(CounterFull));
    assert_eq!(stats.try_on_script_result(&script.result), Err(CounterFull));
    assert_eq!(stats, full);
    stats = room_for_one;
    assert_eq!(stats.try_on_test_view(&test.view()), Ok(()));
    assert_eq!(stats.try_on_script_result(&script.result), Ok(()));
    assert_eq!(stats, full);
    assert_eq!(CounterFull.to_string(), "a counter is full");
}
