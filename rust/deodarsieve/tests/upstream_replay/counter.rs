//! The counters that one finished unit raises.
//!
//! A case is `script RESULT: COUNTERS` or `test RESULT ATTEMPTS SETTING SLOW: COUNTERS`. COUNTERS
//! are `NAME: NUMBER`, separated by a comma and a space. A counter that is not named is 0.

use crate::fixtures::finished_script;
use crate::upstream_replay::unit::{Unit, test_in};
use crate::upstream_replay::words::named_result;
use deodarsieve::{RunStart, RunStats};

/// Returns the counters after a unit was counted from zero.
fn updated(unit: &Unit) -> RunStats {
    let mut stats = RunStats::default();
    match unit {
        Unit::Script(script) => stats.on_setup_script_finished(script),
        Unit::Test(test) => stats.on_test_finished(test),
    }
    stats
}

/// Returns the counters of a run of one unit.
fn counted(unit: &Unit) -> RunStats {
    let start = RunStart {
        initial_run_count: 0,
        setup_scripts_initial_count: 0,
        skipped: 0,
        cancel_reason: None,
    };
    RunStats::of_run(&[unit.borrowed()], start)
}

/// Returns the unit that words name.
pub fn unit_in(text: &str) -> Option<Unit> {
    let words: Vec<&str> = text.split(' ').collect();
    match words.as_slice() {
        ["script", result] => Some(Unit::Script(finished_script(named_result(result)?))),
        ["test", rest @ ..] => test_in(rest).map(Unit::Test),
        _ => None,
    }
}

/// Returns the counter with this name.
fn counter<'a>(stats: &'a mut RunStats, name: &str) -> Option<&'a mut usize> {
    macro_rules! named {
        ($($counter:ident),* $(,)?) => {{
            // There is no `..`, so the compiler refuses a list that lacks a counter.
            let RunStats { $($counter,)* cancel_reason: _ } = stats;
            match name {
                $(stringify!($counter) => Some($counter),)*
                _ => None,
            }
        }};
    }
    named!(
        initial_run_count,
        finished_count,
        setup_scripts_initial_count,
        setup_scripts_finished_count,
        setup_scripts_passed,
        setup_scripts_failed,
        setup_scripts_exec_failed,
        setup_scripts_timed_out,
        passed,
        passed_slow,
        passed_timed_out,
        flaky,
        failed,
        failed_slow,
        failed_timed_out,
        leaky,
        leaky_failed,
        exec_failed,
        skipped,
    )
}

/// Returns the counters that a text names.
pub fn counters_in(text: &str) -> Option<RunStats> {
    let mut stats = RunStats::default();
    for part in text.split(", ") {
        let (name, value) = part.split_once(": ")?;
        *counter(&mut stats, name)? = value.parse().ok()?;
    }
    Some(stats)
}

/// Returns true if the crates have the result of a case, or `None` if the text is not a case.
pub fn agrees(case: &str) -> Option<bool> {
    let (unit, counters) = case.split_once(": ")?;
    let (unit, counters) = (unit_in(unit)?, counters_in(counters)?);
    Some(updated(&unit) == counters && counted(&unit) == counters)
}
