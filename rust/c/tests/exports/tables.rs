//! The variants of each enumeration with their names in the header, in the order of their codes.

use crate::header_text::numbers;
use deodarsieve::{
    AbortDescription, CancelReason, ExecutionResultDescription, FailureDescription,
    FinalStatusLevel, FlakyResult, LeakTimeoutResult, OutputStoreFinal, RunFailureStep, RunOutcome,
    SlowTimeoutResult, StatusLevel, StressFinalRunStats, TestOutputDisplay,
};
use deodarsieve_c::c_values::codes;
use deodarsieve_c::c_values::status::{BAD_CODE, OK};
use std::sync::LazyLock;

pub const FLAKY_RESULTS: [(&str, FlakyResult); 2] =
    [("PASS", FlakyResult::Pass), ("FAIL", FlakyResult::Fail)];

/// The reasons in the order of the table that `tools/erase` writes. Their names in the header follow
/// from those of the variants.
pub static REASONS: LazyLock<Vec<(String, Option<CancelReason>)>> = LazyLock::new(|| {
    let name = |reason| match reason {
        None => String::from("NONE"),
        Some(reason) => constant_name(&format!("{reason:?}")),
    };
    codes::REASONS
        .map(|reason: Option<CancelReason>| (name(reason), reason))
        .to_vec()
});

/// Returns the name of a constant of C for a variant of Rust: `TEST_FAILURE` for `TestFailure`.
fn constant_name(variant: &str) -> String {
    let mut name = String::new();
    for letter in variant.chars() {
        if letter.is_uppercase() && !name.is_empty() {
            name.push('_');
        }
        name.push(letter.to_ascii_uppercase());
    }
    name
}

pub const LEVELS: [(&str, StatusLevel); 8] = [
    ("NONE", StatusLevel::None),
    ("FAIL", StatusLevel::Fail),
    ("RETRY", StatusLevel::Retry),
    ("SLOW", StatusLevel::Slow),
    ("LEAK", StatusLevel::Leak),
    ("PASS", StatusLevel::Pass),
    ("SKIP", StatusLevel::Skip),
    ("ALL", StatusLevel::All),
];

pub const FINAL_LEVELS: [(&str, FinalStatusLevel); 8] = [
    ("NONE", FinalStatusLevel::None),
    ("FAIL", FinalStatusLevel::Fail),
    ("FLAKY", FinalStatusLevel::Flaky),
    ("SLOW", FinalStatusLevel::Slow),
    ("SKIP", FinalStatusLevel::Skip),
    ("LEAK", FinalStatusLevel::Leak),
    ("PASS", FinalStatusLevel::Pass),
    ("ALL", FinalStatusLevel::All),
];

pub const DISPLAYS: [(&str, TestOutputDisplay); 4] = [
    ("IMMEDIATE", TestOutputDisplay::Immediate),
    ("IMMEDIATE_FINAL", TestOutputDisplay::ImmediateFinal),
    ("FINAL", TestOutputDisplay::Final),
    ("NEVER", TestOutputDisplay::Never),
];

pub const STORES: [(&str, OutputStoreFinal); 3] = [
    ("NO", OutputStoreFinal::No),
    (
        "TEST",
        OutputStoreFinal::Yes {
            display_output: false,
        },
    ),
    (
        "WITH_OUTPUT",
        OutputStoreFinal::Yes {
            display_output: true,
        },
    ),
];

pub const STEPS: [(&str, RunFailureStep); 2] = [
    ("TEST", RunFailureStep::Test),
    ("SETUP_SCRIPT", RunFailureStep::SetupScript),
];

pub const OUTCOMES: [(&str, RunOutcome); 6] = [
    ("NO_TESTS_RUN", RunOutcome::NoTestsRun),
    ("SUCCESS", RunOutcome::Success),
    (
        "CANCELLED_AT_TESTS",
        RunOutcome::Cancelled {
            step: RunFailureStep::Test,
        },
    ),
    (
        "CANCELLED_AT_SETUP_SCRIPTS",
        RunOutcome::Cancelled {
            step: RunFailureStep::SetupScript,
        },
    ),
    (
        "FAILED_AT_TESTS",
        RunOutcome::Failed {
            step: RunFailureStep::Test,
        },
    ),
    (
        "FAILED_AT_SETUP_SCRIPTS",
        RunOutcome::Failed {
            step: RunFailureStep::SetupScript,
        },
    ),
];

pub const SUMMARIES: [(&str, StressFinalRunStats); 4] = [
    ("NO_TESTS_RUN", StressFinalRunStats::NoTestsRun),
    ("SUCCESS", StressFinalRunStats::Success),
    ("CANCELLED", StressFinalRunStats::Cancelled),
    ("FAILED", StressFinalRunStats::Failed),
];

pub const STRESS: [&str; 4] = ["COUNT", "INFINITE", "TIME", "NOTHING"];

pub const SLICES: [&str; 4] = ["NONE", "PANIC_MESSAGE", "ERROR_STR", "SHOULD_PANIC"];

/// Returns the results of attempts, with the number of an exit code, a signal or a status.
pub fn results(number: i32) -> [(&'static str, ExecutionResultDescription); 10] {
    use ExecutionResultDescription::{ExecFail, Fail, Leak, Pass, Timeout};
    let failed = |failure| Fail {
        failure,
        leaked: false,
    };
    let aborted = |abort| failed(FailureDescription::Abort { abort });
    [
        ("PASS", Pass),
        (
            "LEAK_PASS",
            Leak {
                result: LeakTimeoutResult::Pass,
            },
        ),
        (
            "LEAK_FAIL",
            Leak {
                result: LeakTimeoutResult::Fail,
            },
        ),
        (
            "EXIT_CODE",
            failed(FailureDescription::ExitCode { code: number }),
        ),
        (
            "UNIX_SIGNAL",
            aborted(AbortDescription::UnixSignal {
                signal: number,
                name: None,
            }),
        ),
        (
            "WINDOWS_NT_STATUS",
            aborted(AbortDescription::WindowsNtStatus {
                code: number,
                message: None,
            }),
        ),
        (
            "WINDOWS_JOB_OBJECT",
            aborted(AbortDescription::WindowsJobObject),
        ),
        ("EXEC_FAIL", ExecFail),
        (
            "TIMEOUT_PASS",
            Timeout {
                result: SlowTimeoutResult::Pass,
            },
        ),
        (
            "TIMEOUT_FAIL",
            Timeout {
                result: SlowTimeoutResult::Fail,
            },
        ),
    ]
}

/// Checks that the header has the names of a table, with the codes 0, 1, 2 and so on.
fn expect_names<T>(prefix: &str, table: &[(impl AsRef<str>, T)]) {
    let mut codes = numbers(prefix);
    // The prefix of summaries is also one of final status levels.
    codes.retain(|(name, _)| !name.starts_with("STATUS_LEVEL_"));
    let names = table.iter().map(|(name, _)| name.as_ref());
    assert_eq!(codes, names.zip(0..).collect::<Vec<_>>(), "{prefix}");
}

/// Checks that a call takes the codes of a table, and no others.
pub fn expect_codes<T>(table: &[T], call: impl Fn(u32) -> u32) {
    let end = u32::try_from(table.len()).expect("a table is short");
    for code in 0..end {
        assert_eq!(call(code), OK, "{code}");
    }
    for code in [end, end + 1, u32::MAX] {
        assert_eq!(call(code), BAD_CODE, "{code}");
    }
}

/// Returns the code of a variant.
pub fn code_of<N, T: PartialEq>(table: &[(N, T)], variant: &T) -> u32 {
    let found = table.iter().zip(0..).find(|((_, it), _)| it == variant);
    found.expect("each variant has a code").1
}

/// Returns the variant of a code.
pub fn variant_of<N, T: Copy>(table: &[(N, T)], code: u32) -> T {
    table[code as usize].1
}

#[test]
fn the_header_has_the_names_of_the_variants() {
    expect_names("DEODARSIEVE_FLAKY_", &FLAKY_RESULTS);
    expect_names("DEODARSIEVE_REASON_", &REASONS);
    expect_names("DEODARSIEVE_STATUS_LEVEL_", &LEVELS);
    expect_names("DEODARSIEVE_FINAL_STATUS_LEVEL_", &FINAL_LEVELS);
    expect_names("DEODARSIEVE_DISPLAY_", &DISPLAYS);
    expect_names("DEODARSIEVE_STORE_", &STORES);
    expect_names("DEODARSIEVE_STEP_", &STEPS);
    expect_names("DEODARSIEVE_OUTCOME_", &OUTCOMES);
    expect_names("DEODARSIEVE_FINAL_", &SUMMARIES);
    expect_names("DEODARSIEVE_RESULT_", &results(0));
    expect_names("DEODARSIEVE_STRESS_", &STRESS.map(|name| (name, ())));
    expect_names("DEODARSIEVE_SLICE_", &SLICES.map(|name| (name, ())));
}
