//! Compares the export of a repeated run with the layer for all of its codes.

use crate::tables::{STRESS, expect_codes};
use deodarsieve::{StressCount, StressProgress, StressRemaining};
use deodarsieve_c::c_values::layout::{FfiDuration, FfiStressProgress, FfiStressRemaining};
use deodarsieve_c::c_values::status::OK;
use deodarsieve_c::exports::stress::deodarsieve_stress_progress_remaining;
use std::num::NonZero;
use std::time::Duration;

pub const NO_TIME: FfiDuration = FfiDuration {
    seconds: 0,
    nanoseconds: 0,
};

/// The progress of a run that is to be repeated 7 times, or for 7 seconds.
pub fn progress(kind: u32, completed: u32, seconds: u64) -> FfiStressProgress {
    FfiStressProgress {
        kind,
        total_count: 7,
        completed,
        total: FfiDuration {
            seconds: 7,
            nanoseconds: 0,
        },
        elapsed: FfiDuration {
            seconds,
            nanoseconds: 250_000_000,
        },
    }
}

/// Returns the same progress in the layer's form.
fn progress_of_layer(kind: &str, completed: u32, seconds: u64) -> StressProgress {
    let elapsed = Duration::new(seconds, 250_000_000);
    let count = NonZero::new(7).expect("7 is not 0");
    match kind {
        "COUNT" => StressProgress::Count {
            total: StressCount::Count { count },
            elapsed,
            completed,
        },
        "INFINITE" => StressProgress::Count {
            total: StressCount::Infinite,
            elapsed,
            completed,
        },
        "TIME" => StressProgress::Time {
            total: Duration::from_secs(7),
            elapsed,
            completed,
        },
        _ => panic!("a run is not repeated for {kind}"),
    }
}

/// Returns what remains as the name of its kind, its count and its time.
fn left(remaining: Option<StressRemaining>) -> (&'static str, u32, Duration) {
    match remaining {
        None => ("NOTHING", 0, Duration::ZERO),
        Some(StressRemaining::Count(count)) => ("COUNT", count.get(), Duration::ZERO),
        Some(StressRemaining::Infinite) => ("INFINITE", 0, Duration::ZERO),
        Some(StressRemaining::Time(time)) => ("TIME", 0, time.get()),
    }
}

#[test]
fn what_is_left_is_that_of_the_layer() {
    for (kind, name) in (0..).zip(&STRESS[..3]) {
        for (completed, seconds) in [(0, 0), (3, 2), (6, 6), (7, 7), (8, 8)] {
            let mut answer = FfiStressRemaining {
                kind: 77,
                count: 77,
                time: NO_TIME,
            };
            let given = progress(kind, completed, seconds);
            assert_eq!(
                deodarsieve_stress_progress_remaining(&given, &mut answer),
                OK
            );
            let time = Duration::new(answer.time.seconds, answer.time.nanoseconds);
            let expected = progress_of_layer(name, completed, seconds).remaining();
            let found = (STRESS[answer.kind as usize], answer.count, time);
            assert_eq!(found, left(expected), "{name} {completed}");
        }
    }
}

#[test]
fn codes_past_the_end_are_refused() {
    expect_codes(&STRESS[..3], |kind| {
        let mut answer = FfiStressRemaining {
            kind: 77,
            count: 77,
            time: NO_TIME,
        };
        deodarsieve_stress_progress_remaining(&progress(kind, 3, 2), &mut answer)
    });
}
