// Made by tools/erase from crates/c_values/src/stress.rt. Do not edit.
//! The progress of repeated runs, and what remains of them.

use crate::c_values::layout::{FfiDuration, FfiStressProgress, FfiStressRemaining};
use deodarsieve::NonZeroDuration;
use deodarsieve::{StressCount, StressProgress, StressRemaining};
use std::num::NonZero;
use std::time::Duration;

/// Returns the progress of a run, or `None` if a code is not in its table or a number is not
/// allowed.
pub fn progress_of(progress: &FfiStressProgress) -> Option<StressProgress> {
    let elapsed = duration(progress.elapsed)?;
    let completed = progress.completed;
    match progress.kind {
        0 => {
            let count = NonZero::<u32>::new(progress.total_count)?;
            Some(StressProgress::Count {
                total: StressCount::Count { count },
                elapsed,
                completed,
            })
        }
        1 => Some(StressProgress::Count {
            total: StressCount::Infinite,
            elapsed,
            completed,
        }),
        2 => Some(StressProgress::Time {
            total: duration(progress.total)?,
            elapsed,
            completed,
        }),
        _ => None,
    }
}

/// Returns a duration, or `None` if it has 1,000,000,000 nanoseconds or more.
fn duration(given: FfiDuration) -> Option<Duration> {
    (given.nanoseconds < 1_000_000_000).then(|| Duration::new(given.seconds, given.nanoseconds))
}

/// Returns the struct of C for what remains.
pub fn written_left(left: Option<StressRemaining>) -> FfiStressRemaining {
    match left {
        None => left_without_time(3, 0),
        Some(left) => written_some(left),
    }
}

/// Returns the struct of C for what remains, which is not nothing.
fn written_some(left: StressRemaining) -> FfiStressRemaining {
    match left {
        StressRemaining::Count(count) => left_without_time(0, count.get()),
        StressRemaining::Infinite => left_without_time(1, 0),
        StressRemaining::Time(time) => written_time(time),
    }
}

/// Returns the struct of C for what remains if it is not a time.
fn left_without_time(kind: u32, count: u32) -> FfiStressRemaining {
    FfiStressRemaining {
        kind,
        count,
        time: FfiDuration {
            seconds: 0,
            nanoseconds: 0,
        },
    }
}

/// Returns the struct of C for the time that remains.
fn written_time(time: NonZeroDuration) -> FfiStressRemaining {
    let time = time.get();
    FfiStressRemaining {
        kind: 2,
        count: 0,
        time: FfiDuration {
            seconds: time.as_secs(),
            nanoseconds: time.subsec_nanos(),
        },
    }
}
