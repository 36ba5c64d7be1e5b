//! Tests by their attempts: descriptions, levels, and what is shown.

use crate::fixtures::attempt;
use crate::upstream_replay::level::{named_final_level, named_level};
use crate::upstream_replay::rows::words::result_in;
use crate::upstream_replay::visibility::named_display;
use crate::upstream_replay::words::named_reason;
use crate::upstream_replay::words::{named_setting, named_truth};
use deodarsieve::{
    AbortDescription, ExecuteStatus, ExecutionDescription, ExecutionResult,
    ExecutionResultDescription, ExecutionStatuses, FailureDescription, LiveSpec, RetryData,
    StatusLevels,
};

/// Returns the results of all attempts; `none` for no attempt.
fn results_in(words: &str) -> Option<Vec<ExecutionResult>> {
    match words {
        "none" => Some(Vec::new()),
        words => words.split(',').map(result_in).collect(),
    }
}

/// Returns attempts with these results, the last one slow or not.
fn attempts_of(results: &[ExecutionResult], is_slow: bool) -> Vec<ExecuteStatus<LiveSpec>> {
    (1..)
        .zip(results)
        .map(|(number, result)| {
            attempt(*result, number, is_slow && number as usize == results.len())
        })
        .collect()
}

/// Returns the case of a test's description, its number of attempts, its setting, both levels,
/// whether its output is that of a success, the number of its last attempt, and whether it is
/// consistent.
fn described(test: &ExecutionStatuses<LiveSpec>) -> String {
    let description = test.describe();
    let case = match description {
        ExecutionDescription::Success { .. } => "success",
        ExecutionDescription::Flaky { .. } => "flaky",
        ExecutionDescription::Failure { .. } => "failure",
    };
    format!(
        "{case} after {}, {:?}, {:?}, {:?}, {}, {}, {}",
        test.len(),
        test.flaky_result(),
        description.status_level(),
        description.final_status_level(),
        description.is_success_for_output(),
        description.last_status().retry_data.attempt,
        description.is_consistent()
    )
}

fn of_test(results: &str, setting: &str, is_slow: &str) -> Option<String> {
    let statuses = attempts_of(&results_in(results)?, named_truth(is_slow)?);
    Some(
        match ExecutionStatuses::try_from_parts(statuses, named_setting(setting)?) {
            Ok(test) => described(&test),
            Err(refused) => format!("{refused:?}"),
        },
    )
}

/// Returns whether a success that is made of an attempt with this result is consistent, and whether
/// its output is that of a success.
fn of_success(word: &str) -> Option<String> {
    let single_status = &attempt(result_in(word)?, 1, true);
    let description = ExecutionDescription::Success { single_status };
    Some(format!(
        "{}, {}",
        description.is_consistent(),
        description.is_success_for_output()
    ))
}

/// Returns the number of an attempt, of this many.
fn attempt_in(attempt: &str, total: &str) -> Option<RetryData> {
    Some(RetryData {
        attempt: attempt.parse().ok()?,
        total_attempts: total.parse().ok()?,
    })
}

fn of_attempt(attempt: &str, total: &str) -> Option<String> {
    Some(attempt_in(attempt, total)?.is_last_attempt().to_string())
}

/// Returns the debugging output of an attempt's number, on one line and on several, the latter with
/// their ends spelled.
fn of_retry_data(attempt: &str, total: &str) -> Option<String> {
    let data = attempt_in(attempt, total)?;
    let on_several = format!("{data:#?}").replace('\n', "\\n");
    Some(format!("{data:?}, {on_several}"))
}

/// Returns the result that words name, or `job object` for the end by the Windows job object.
fn described_in(word: &str) -> Option<ExecutionResultDescription> {
    if word != "job object" {
        let result = result_in(word)?;
        return Some(ExecutionResultDescription::from_status(result, None));
    }
    let abort = AbortDescription::WindowsJobObject;
    Some(ExecutionResultDescription::Fail {
        failure: FailureDescription::Abort { abort },
        leaked: false,
    })
}

/// Returns what is shown of a test with this result, by the levels and the display of the reporter.
fn shown(levels: &[&str], reason: &str, word: &str) -> Option<String> {
    let [own, own_final, display, of_test, final_of_test] = levels else {
        return None;
    };
    let levels = StatusLevels {
        status_level: named_level(own)?,
        final_status_level: named_final_level(own_final)?,
    };
    let output = levels.compute_output_on_test_finished(
        named_display(display)?,
        named_reason(reason)?,
        named_level(of_test)?,
        named_final_level(final_of_test)?,
        &described_in(word)?,
    );
    Some(format!(
        "{} {} {:?}",
        output.write_status_line, output.show_immediate, output.store_final
    ))
}

/// Returns the result of the crates, or `None` if the question is of another group.
pub fn answer(parts: &[&str]) -> Option<String> {
    match parts {
        ["describe", results, setting, is_slow] => of_test(results, setting, is_slow),
        ["is_consistent", word] => of_success(word),
        ["is_last_attempt", attempt, total] => of_attempt(attempt, total),
        ["RetryData", attempt, total] => of_retry_data(attempt, total),
        ["compute_output_on_test_finished", levels @ .., reason, word] => {
            shown(levels, reason, word)
        }
        _ => None,
    }
}
