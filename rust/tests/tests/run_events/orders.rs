//! The orders of types, and the hashes of equal values.

use deodarsieve::{
    CancelReason, FinalStatusLevel, RetryData, RunFailureStep, StatusLevel, StressIndex,
};
use std::hash::{DefaultHasher, Hash, Hasher};
use std::num::NonZero;

#[test]
fn reasons_levels_and_steps_are_ordered() {
    assert!(CancelReason::GlobalTimeout < CancelReason::Signal);
    assert!(StatusLevel::Leak < StatusLevel::Pass);
    assert!(FinalStatusLevel::Skip < FinalStatusLevel::Leak);
    assert!(RunFailureStep::Test < RunFailureStep::SetupScript);
}

#[test]
fn attempts_are_ordered_by_their_numbers() {
    let first = RetryData {
        attempt: 1,
        total_attempts: 5,
    };
    let second = RetryData {
        attempt: 2,
        total_attempts: 3,
    };
    assert!(first < second);
}

/// Returns a sub-run of this number, of an unknown number of sub-runs.
fn sub_run(current: u32) -> StressIndex {
    StressIndex {
        current,
        total: None,
    }
}

#[test]
fn sub_runs_are_ordered_by_their_numbers() {
    let known = StressIndex {
        total: NonZero::new(1),
        ..sub_run(0)
    };
    assert!(sub_run(0) < sub_run(1));
    assert!(sub_run(0) < known);
}

#[test]
fn the_hash_of_a_sub_run_is_that_of_its_numbers() {
    let hash = |sub_run: StressIndex| {
        let mut hasher = DefaultHasher::new();
        sub_run.hash(&mut hasher);
        hasher.finish()
    };
    let known = StressIndex {
        total: NonZero::new(1),
        ..sub_run(0)
    };
    assert_eq!(hash(sub_run(0)), hash(sub_run(0)));
    assert_ne!(hash(sub_run(0)), hash(sub_run(1)));
    assert_ne!(hash(sub_run(0)), hash(known));
}
