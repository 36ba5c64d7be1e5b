//! Repeated runs: what remains of them, and the ids of their sub-runs.

use deodarsieve::{NonZeroDuration, StressCount, StressIndex, StressProgress};
use std::num::NonZero;
use std::time::Duration;
use uuid::Uuid;

/// Returns a run that is repeated this many times, `infinite` for no end.
fn counted_in(total: &str, completed: &str) -> Option<StressProgress> {
    let total = match total {
        "infinite" => StressCount::Infinite,
        number => StressCount::Count {
            count: number.parse().ok()?,
        },
    };
    Some(StressProgress::Count {
        total,
        elapsed: Duration::from_secs(1),
        completed: completed.parse().ok()?,
    })
}

/// Returns a run that is repeated for this many nanoseconds.
fn timed_in(total: &str, elapsed: &str) -> Option<StressProgress> {
    Some(StressProgress::Time {
        total: Duration::from_nanos(total.parse().ok()?),
        elapsed: Duration::from_nanos(elapsed.parse().ok()?),
        completed: 7,
    })
}

/// Returns what remains of a run.
fn left_of(progress: Option<StressProgress>) -> Option<String> {
    Some(format!("{:?}", progress?.remaining()))
}

/// Returns the id of a sub-run.
fn id_of(progress: Option<StressProgress>, run: &str) -> Option<String> {
    Some(progress?.unique_id(Uuid::from_u128(run.parse().ok()?)))
}

/// Returns the nanoseconds of a duration, if it is above 0.
fn above_zero(nanos: &str) -> Option<String> {
    let duration = NonZeroDuration::new(Duration::from_nanos(nanos.parse().ok()?));
    Some(format!(
        "{:?}",
        duration.map(|duration| duration.get().as_nanos())
    ))
}

/// Returns the total of a sub-run, `-` if it is not known.
fn total_of(total: &str) -> Option<String> {
    let total = match total {
        "-" => None,
        number => NonZero::<u32>::new(number.parse().ok()?),
    };
    let index = StressIndex { current: 2, total };
    Some(format!("{:?}", index.total_get()))
}

/// Returns the result of the crates, or `None` if the question is of another group.
pub fn answer(parts: &[&str]) -> Option<String> {
    match parts {
        ["remaining count", total, completed] => left_of(counted_in(total, completed)),
        ["remaining time", total, elapsed] => left_of(timed_in(total, elapsed)),
        ["unique_id count", run, completed] => id_of(counted_in("infinite", completed), run),
        ["unique_id time", run] => id_of(timed_in("5", "3"), run),
        ["NonZeroDuration", nanos] => above_zero(nanos),
        ["total_get", total] => total_of(total),
        _ => None,
    }
}
