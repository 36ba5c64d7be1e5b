//! The attempts of a test, in order.

use deodarsieve::{ExecuteStatus, FlakyResult, LiveSpec};
use deodarsieve_tests::fixtures::{EXIT_ONE, PASS, finished_test};

/// Returns the number of an attempt.
fn number_of(attempt: &ExecuteStatus<LiveSpec>) -> u32 {
    attempt.retry_data.attempt
}

#[test]
fn attempts_come_from_both_ends() {
    let test = finished_test(&[EXIT_ONE, EXIT_ONE], PASS, false, FlakyResult::Pass);
    let mut numbers = test.iter().map(number_of);
    assert_eq!(numbers.next(), Some(1));
    assert_eq!(numbers.next_back(), Some(3));
    assert_eq!(numbers.next(), Some(2));
    assert_eq!(numbers.next(), None);
    let in_order: Vec<u32> = test
        .into_iter()
        .map(|attempt| number_of(&attempt))
        .collect();
    assert_eq!(in_order, [1, 2, 3]);
}
