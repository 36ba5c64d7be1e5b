//! Comments and sentences that name the reasons to which they apply.

use deodarsieve::{
    AbortDescription, CancelReason, ExecutionResultDescription, FailureDescription, FinalRunStats,
    FinalStatusLevel, RunStats, StatusLevel, StatusLevels, TestOutputDisplay,
};
use deodarsieve_tests::named::{reasons, word_of};

const HEADER: &str = include_str!("../../c/include/deodarsieve.h");
const LAWS: &str = include_str!("../../../crates/run_events_results/src/laws.rt");
const OUTPUT: &str = include_str!("../../../crates/run_events_results/src/levels/output.rt");
const RUN_DIGEST: &str = include_str!("../../../docs/RUN-DIGEST.md");
const VISIBILITY: &str = include_str!("../../../crates/run_events_results/specs/Visibility.antt");

/// Returns the names between two texts: parts of letters, `-` and `_`.
fn names_between<'a>(text: &'a str, start: &str, end: &str) -> Vec<&'a str> {
    let (_, rest) = text
        .split_once(start)
        .unwrap_or_else(|| panic!("no {start}"));
    let (part, _) = rest.split_once(end).unwrap_or_else(|| panic!("no {end}"));
    let is_of_name = |c: char| c.is_alphanumeric() || c == '-' || c == '_';
    part.split(|c| !is_of_name(c)).collect()
}

/// Asserts that, of the names of all reasons, those of the reasons that apply are among `found`.
fn assert_named(
    found: &[&str],
    name_of: impl Fn(CancelReason) -> String,
    applies: impl Fn(CancelReason) -> bool,
) {
    for reason in reasons().into_iter().flatten() {
        let name = name_of(reason);
        let is_named = found.contains(&name.as_str());
        assert_eq!(is_named, applies(reason), "{name} in {found:?}");
    }
}

/// Returns the name of a reason in the C header.
fn constant_of(reason: CancelReason) -> String {
    word_of(Some(reason)).to_uppercase().replace('-', "_")
}

/// Returns the name of the variant.
fn variant_of(reason: CancelReason) -> String {
    format!("{reason:?}")
}

/// Returns true if a run with a failed test has failed under the reason, and is not cancelled.
fn is_failure(reason: CancelReason) -> bool {
    let stats = RunStats {
        failed: 1,
        cancel_reason: Some(reason),
        ..RunStats::default()
    };
    matches!(stats.summarize_final(), FinalRunStats::Failed { .. })
}

#[test]
fn reasons_that_are_failures() {
    let found = names_between(RUN_DIGEST, "These reasons are failures: ", ". ");
    assert_named(&found, |reason| word_of(Some(reason)), is_failure);
    let found = names_between(HEADER, "If the cancel reason is not one of ", ", the run");
    assert_named(&found, constant_of, is_failure);
}

/// Returns true if less is shown or stored of a failed test under the reason than under none.
fn is_shown_less(reason: CancelReason) -> bool {
    let fail = |failure| ExecutionResultDescription::Fail {
        failure,
        leaked: false,
    };
    let exited = fail(FailureDescription::ExitCode { code: 1 });
    let (signal, name) = (15, None);
    let abort = AbortDescription::UnixSignal { signal, name };
    let ended = fail(FailureDescription::Abort { abort });
    let own = StatusLevels {
        status_level: StatusLevel::All,
        final_status_level: FinalStatusLevel::All,
    };
    [exited, ended].iter().any(|result| {
        let output = |cancelled| {
            own.compute_output_on_test_finished(
                TestOutputDisplay::ImmediateFinal,
                cancelled,
                StatusLevel::Fail,
                FinalStatusLevel::Fail,
                result,
            )
        };
        output(Some(reason)) != output(None)
    })
}

#[test]
fn reasons_under_which_less_is_shown() {
    let found = names_between(HEADER, "With these cancel reasons it does less:", "Returns");
    assert_named(&found, constant_of, is_shown_less);
    let found = names_between(
        OUTPUT,
        "it shows and stores less:",
        "The line does not depend",
    );
    assert_named(&found, variant_of, is_shown_less);
}

#[test]
fn reasons_of_the_exception() {
    let is_later =
        |reason| reason > CancelReason::TestFailureImmediate && reason <= CancelReason::Signal;
    for text in [OUTPUT, VISIBILITY] {
        let found = names_between(text, ", but not with ", ".\n");
        assert_named(&found, variant_of, is_later);
    }
}

#[test]
fn the_least_and_the_most_severe_reason() {
    let found = names_between(
        LAWS,
        "Cancel reasons are ordered as they are declared",
        ".\n",
    );
    let reasons: Vec<_> = reasons().into_iter().flatten().collect();
    let is_end = |reason| Some(&reason) == reasons.first() || Some(&reason) == reasons.last();
    assert_named(&found, variant_of, is_end);
}
