//! Compares the exports with the layer for all codes of summaries and outcomes.

use crate::tables::{OUTCOMES, REASONS, STEPS, SUMMARIES, code_of, expect_codes, variant_of};
use deodarsieve::{
    FinalRunStats, RunFailureStep, RunOutcome, RunStats, RunStatsFailureKind, StressFinalRunStats,
    StressIndex, StressRunStats,
};
use deodarsieve_c::c_values::layout::{FfiFinalStats, FfiRunStats};
use deodarsieve_c::c_values::status::OK;
use deodarsieve_c::exports::outcomes::{
    deodarsieve_final_stats_summarize_stress, deodarsieve_outcome_combine,
    deodarsieve_outcome_of_sub_runs, deodarsieve_run_stats_summarize,
};
use std::collections::BTreeSet;

pub const NOTHING: FfiFinalStats = FfiFinalStats {
    kind: 0,
    reason: 0,
    step: 0,
    initial_run_count: 0,
    not_run: 0,
};

/// Returns the fields of a summary.
fn fields(stats: &FfiFinalStats) -> (u32, u32, u32, usize, usize) {
    (
        stats.kind,
        stats.reason,
        stats.step,
        stats.initial_run_count,
        stats.not_run,
    )
}

/// Returns a summary of the layer as the struct of C.
fn written(stats: FinalRunStats) -> FfiFinalStats {
    let of_kind = |kind| FfiFinalStats {
        kind: code_of(&SUMMARIES, &kind),
        ..NOTHING
    };
    match stats {
        FinalRunStats::NoTestsRun => of_kind(StressFinalRunStats::NoTestsRun),
        FinalRunStats::Success => of_kind(StressFinalRunStats::Success),
        FinalRunStats::Cancelled { reason, kind } => {
            let cancelled = of_kind(StressFinalRunStats::Cancelled);
            let reason = code_of(&REASONS, &reason);
            at_step(
                kind,
                FfiFinalStats {
                    reason,
                    ..cancelled
                },
            )
        }
        FinalRunStats::Failed { kind } => at_step(kind, of_kind(StressFinalRunStats::Failed)),
    }
}

/// Returns a summary with a step and its numbers.
fn at_step(kind: RunStatsFailureKind, stats: FfiFinalStats) -> FfiFinalStats {
    match kind {
        RunStatsFailureKind::Test {
            initial_run_count,
            not_run,
        } => {
            let step = code_of(&STEPS, &RunFailureStep::Test);
            FfiFinalStats {
                step,
                initial_run_count,
                not_run,
                ..stats
            }
        }
        RunStatsFailureKind::SetupScript => FfiFinalStats {
            step: code_of(&STEPS, &RunFailureStep::SetupScript),
            ..stats
        },
    }
}

/// Returns a summary of each kind, reason and step.
fn summaries() -> Vec<FinalRunStats> {
    let mut all = vec![FinalRunStats::NoTestsRun, FinalRunStats::Success];
    let tests = RunStatsFailureKind::Test {
        initial_run_count: 9,
        not_run: 4,
    };
    for kind in [tests, RunStatsFailureKind::SetupScript] {
        all.push(FinalRunStats::Failed { kind });
        all.extend(REASONS.iter().map(|(_, reason)| FinalRunStats::Cancelled {
            reason: *reason,
            kind,
        }));
    }
    all
}

/// Calls the export for the outcome of one run.
fn outcome_of(stats: &FfiFinalStats, answer: &mut u32) -> u32 {
    // SAFETY: the pointer is to one struct.
    unsafe { deodarsieve_outcome_of_sub_runs(stats, 1, answer) }
}

#[test]
fn summaries_are_read() {
    for last_final_stats in summaries() {
        let stats = written(last_final_stats);
        let mut answer = 77;
        assert_eq!(outcome_of(&stats, &mut answer), OK);
        let outcome = RunOutcome::from_final_stats(last_final_stats);
        assert_eq!(answer, code_of(&OUTCOMES, &outcome), "{last_final_stats:?}");
        for failed_count in [0, 1] {
            let completed = StressIndex {
                current: 0,
                total: None,
            };
            let run = StressRunStats {
                completed,
                success_count: 0,
                failed_count,
                last_final_stats,
            };
            let status =
                deodarsieve_final_stats_summarize_stress(&stats, failed_count, &mut answer);
            assert_eq!(status, OK);
            assert_eq!(
                answer,
                code_of(&SUMMARIES, &run.summarize_final()),
                "{run:?}"
            );
        }
    }
}

/// Returns counters with small numbers, in the layer's form and in that of C.
fn counters() -> impl Iterator<Item = (RunStats, FfiRunStats)> {
    (0..64 * REASONS.len()).map(|case: usize| {
        let digit = |at: usize| case >> at & 1;
        let code = u32::try_from(case / 64).expect("a table is short");
        let reason = variant_of(&REASONS, code);
        let given = FfiRunStats {
            initial_run_count: digit(0),
            finished_count: digit(1),
            setup_scripts_initial_count: digit(2),
            setup_scripts_finished_count: digit(3),
            failed: digit(4),
            setup_scripts_failed: digit(5),
            cancel_reason: code,
            ..FfiRunStats::default()
        };
        let stats = RunStats {
            initial_run_count: digit(0),
            finished_count: digit(1),
            setup_scripts_initial_count: digit(2),
            setup_scripts_finished_count: digit(3),
            failed: digit(4),
            setup_scripts_failed: digit(5),
            cancel_reason: reason,
            ..RunStats::default()
        };
        (stats, given)
    })
}

#[test]
fn summaries_are_written() {
    let mut found = BTreeSet::new();
    for (stats, given) in counters() {
        let mut answer = FfiFinalStats {
            kind: 77,
            ..NOTHING
        };
        assert_eq!(deodarsieve_run_stats_summarize(&given, &mut answer), OK);
        assert_eq!(
            fields(&answer),
            fields(&written(stats.summarize_final())),
            "{stats:?}"
        );
        found.insert((answer.kind, answer.reason, answer.step));
    }
    let all = summaries().into_iter().map(written);
    let all: BTreeSet<_> = all
        .map(|stats| (stats.kind, stats.reason, stats.step))
        .collect();
    assert_eq!(found, all);
}

#[test]
fn outcomes_are_combined_as_in_the_layer() {
    for (code, (_, outcome)) in (0..).zip(OUTCOMES) {
        for (other_code, (_, other)) in (0..).zip(OUTCOMES) {
            let mut answer = 77;
            assert_eq!(
                deodarsieve_outcome_combine(code, other_code, &mut answer),
                OK
            );
            assert_eq!(answer, code_of(&OUTCOMES, &outcome.combine(other)));
        }
    }
    expect_codes(&OUTCOMES, |code| {
        deodarsieve_outcome_combine(code, 0, &mut 77)
    });
    expect_codes(&OUTCOMES, |code| {
        deodarsieve_outcome_combine(0, code, &mut 77)
    });
}

#[test]
fn codes_past_the_end_are_refused() {
    let cancelled = code_of(&SUMMARIES, &StressFinalRunStats::Cancelled);
    let failed = code_of(&SUMMARIES, &StressFinalRunStats::Failed);
    expect_codes(&SUMMARIES, |kind| {
        outcome_of(&FfiFinalStats { kind, ..NOTHING }, &mut 77)
    });
    expect_codes(&REASONS, |reason| {
        outcome_of(
            &FfiFinalStats {
                kind: cancelled,
                reason,
                ..NOTHING
            },
            &mut 77,
        )
    });
    for kind in [cancelled, failed] {
        expect_codes(&STEPS, |step| {
            outcome_of(
                &FfiFinalStats {
                    kind,
                    step,
                    ..NOTHING
                },
                &mut 77,
            )
        });
    }
}
