//! Counters and summaries of runs.

use std::num::NonZero;
use std::time::Duration;

use crate::nextest_json::{is_json, read, refusal};
use deodarsieve::*;

/// Counters with different values, and their JSON. It has the names of the fields in their order, with
/// `-` for `_`.
fn counters() -> (RunStats, String) {
    let zeros = format!("{:?}", RunStats::default());
    let (_, zeros) = zeros.split_once(" { ").expect("a struct has fields");
    let names = zeros
        .split(", ")
        .filter_map(|field| field.strip_suffix(": 0"));
    let numbered: Vec<_> = names.zip(1..).collect();
    let fields = numbered
        .iter()
        .map(|(name, value)| format!("{name}: {value}, "));
    let fields = format!(
        "RunStats {{ {}cancel_reason: Some(Interrupt) }}",
        fields.collect::<String>()
    );
    let members = numbered
        .iter()
        .map(|(name, value)| format!(r#""{}":{value},"#, name.replace('_', "-")));
    let members = format!(
        r#"{}"cancel-reason":"interrupt"}}"#,
        members.collect::<String>()
    );
    let stats = read(&format!("{{{members}"));
    assert_eq!(format!("{stats:?}"), fields);
    assert!(members.contains(r#","setup-scripts-timed-out":8,"passed":9,"#));
    (stats, members)
}

#[test]
fn statistics_of_a_run() {
    let (stats, members) = counters();
    is_json(&stats, &format!("{{{members}"));
    let single = format!(r#"{{"type":"single",{members}"#);
    is_json(&RunFinishedStats::Single(stats), &single);
    let without_reason = members.replace(r#","cancel-reason":"interrupt""#, "");
    let read_without: RunStats = read(&format!("{{{without_reason}"));
    assert_eq!(read_without.cancel_reason, None);
    let refused = refusal::<RunStats>("{}");
    assert!(refused.starts_with("missing field `initial-run-count`"));

    let test = RunStatsFailureKind::Test {
        initial_run_count: 5,
        not_run: 2,
    };
    is_json(
        &RunStatsFailureKind::SetupScript,
        r#"{"step":"setup-script"}"#,
    );
    is_json(
        &test,
        r#"{"step":"test","initial_run_count":5,"not_run":2}"#,
    );
    is_json(&FinalRunStats::Success, r#"{"outcome":"success"}"#);
    is_json(&FinalRunStats::NoTestsRun, r#"{"outcome":"no-tests-run"}"#);
    is_json(
        &FinalRunStats::Failed { kind: test },
        r#"{"outcome":"failed","kind":{"step":"test","initial_run_count":5,"not_run":2}}"#,
    );
    is_json(
        &FinalRunStats::Cancelled {
            reason: None,
            kind: RunStatsFailureKind::SetupScript,
        },
        r#"{"outcome":"cancelled","reason":null,"kind":{"step":"setup-script"}}"#,
    );
}

#[test]
fn statistics_of_a_repeated_run() {
    let index = StressIndex {
        current: 2,
        total: NonZero::new(3),
    };
    is_json(&index, r#"{"current":2,"total":3}"#);
    let without_end = StressIndex {
        current: 2,
        total: None,
    };
    is_json(&without_end, r#"{"current":2,"total":null}"#);
    let stress = StressRunStats {
        completed: index,
        success_count: 1,
        failed_count: 1,
        last_final_stats: FinalRunStats::Success,
    };
    let members = concat!(
        r#""completed":{"current":2,"total":3},"success-count":1,"failed-count":1,"#,
        r#""last-final-stats":{"outcome":"success"}}"#
    );
    is_json(&stress, &format!("{{{members}"));
    let tagged = format!(r#"{{"type":"stress",{members}"#);
    is_json(&RunFinishedStats::Stress(stress), &tagged);
}

#[test]
fn progress_of_a_repeated_run() {
    let count = StressProgress::Count {
        total: StressCount::Count {
            count: NonZero::new(7).expect("it is not zero"),
        },
        elapsed: Duration::new(1, 5),
        completed: 3,
    };
    is_json(
        &count,
        concat!(
            r#"{"progress-type":"count","total":{"kind":"count","count":7},"#,
            r#""elapsed":{"secs":1,"nanos":5},"completed":3}"#
        ),
    );
    is_json(&StressCount::Infinite, r#"{"kind":"infinite"}"#);
    let time = StressProgress::Time {
        total: Duration::from_secs(60),
        elapsed: Duration::from_secs(9),
        completed: 3,
    };
    is_json(
        &time,
        concat!(
            r#"{"progress-type":"time","total":{"secs":60,"nanos":0},"#,
            r#""elapsed":{"secs":9,"nanos":0},"completed":3}"#
        ),
    );
}
