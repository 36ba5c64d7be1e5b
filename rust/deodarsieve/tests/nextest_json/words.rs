//! Settings, reasons, levels and groups, which are words.

use std::fmt::Debug;

use crate::common::{FINAL_LEVELS, STATUS_LEVELS};
use crate::nextest_json::{are_words, is_json, read, refusal};
use deodarsieve::*;
use serde::de::DeserializeOwned;

#[test]
fn settings_are_words() {
    are_words(&[
        (NextestRunMode::Test, "test"),
        (NextestRunMode::Benchmark, "benchmark"),
    ]);
    are_words(&[(FlakyResult::Pass, "pass"), (FlakyResult::Fail, "fail")]);
    are_words(&[
        (LeakTimeoutResult::Pass, "pass"),
        (LeakTimeoutResult::Fail, "fail"),
    ]);
    are_words(&[
        (SlowTimeoutResult::Pass, "pass"),
        (SlowTimeoutResult::Fail, "fail"),
    ]);
}

#[test]
fn displays_are_read_from_words() {
    for (word, display) in [
        ("immediate", TestOutputDisplay::Immediate),
        ("immediate-final", TestOutputDisplay::ImmediateFinal),
        ("final", TestOutputDisplay::Final),
        ("never", TestOutputDisplay::Never),
    ] {
        assert_eq!(read::<TestOutputDisplay>(&format!("{word:?}")), display);
    }
}

/// Returns the words that a type is read from. An error lists them.
fn words_of<T: DeserializeOwned + Debug>() -> Vec<String> {
    let refused = refusal::<T>(r#""no-such-word""#);
    refused
        .split('`')
        .skip(3)
        .step_by(2)
        .map(String::from)
        .collect()
}

#[test]
fn reasons_are_the_names_of_their_variants() {
    let words = words_of::<CancelReason>();
    assert!(words.iter().any(|word| word == "setup-script-failure"));
    for word in words {
        let reason: CancelReason = read(&format!("{word:?}"));
        is_json(&reason, &format!("{word:?}"));
        assert_eq!(format!("{reason:?}").to_lowercase(), word.replace('-', ""));
    }
}

#[test]
fn levels_are_read_from_words() {
    let levels = [
        "none", "fail", "retry", "slow", "leak", "pass", "skip", "all",
    ]
    .map(|word| read::<StatusLevel>(&format!("{word:?}")));
    assert_eq!(levels, STATUS_LEVELS);

    let final_levels = [
        "none", "fail", "flaky", "slow", "skip", "leak", "pass", "all",
    ]
    .map(|word| read::<FinalStatusLevel>(&format!("{word:?}")));
    assert_eq!(final_levels, FINAL_LEVELS);
    assert_eq!(
        read::<FinalStatusLevel>("\"retry\""),
        FinalStatusLevel::Flaky
    );
}

#[test]
fn slots_and_groups() {
    let slots = |test_group| TestSlotAssignment {
        global_slot: 4,
        group_slot: None,
        test_group,
    };
    is_json(
        &slots(TestGroup::Global),
        r#"{"global-slot":4,"group-slot":null,"test-group":"@global"}"#,
    );
    is_json(
        &slots(TestGroup::Custom(String::from("serial"))),
        r#"{"global-slot":4,"group-slot":null,"test-group":"serial"}"#,
    );
}
