//! The words of a report for names, times, results and numbers. They have no control characters.

use crate::report::escape::{name, name_in_document};
use crate::report::numbers::Numbers;
use crate::report_text::{ReportText, Style};
use deodarsieve::RunOutcome;
use deodarsieve_run::{FirstRunning, RunEnd, RunNumbers, TestNote, TestRun};

/// Returns the name of a test without the name of its suite and `$` at the front.
fn own_name<'a>(suite: Option<&str>, name: &'a str) -> &'a str {
    suite
        .and_then(|suite| name.strip_prefix(suite)?.strip_prefix('$'))
        .unwrap_or(name)
}

/// Returns the name of a test, without the name of its suite and `$` at the front. It is not escaped.
pub(crate) fn shown_name(test: &TestNote) -> &str {
    own_name(suite_of(test), &test.name)
}

/// Returns that a program no longer has a test.
pub fn missing_words(test: &str, program: &str) -> String {
    format!("{} of {} is no longer there", name(test), name(program))
}

/// Returns the name of the suite of a test. It is not escaped.
pub(crate) fn suite_of(test: &TestNote) -> Option<&str> {
    test.suite.as_deref().map(String::as_str)
}

/// Returns the name of the suite of a test and the name of the test, as a text shows them.
pub(crate) fn title(test: &TestNote) -> String {
    title_of(suite_of(test), &test.name)
}

/// Returns the same in a document.
pub(crate) fn title_in_document(test: &TestNote) -> String {
    let name = name_in_document(shown_name(test));
    match suite_of(test) {
        Some(suite) => format!("{} {name}", name_in_document(suite)),
        None => name,
    }
}

/// Returns the name of a suite and the name of one of its tests, as a text shows them.
pub(crate) fn title_of(suite: Option<&str>, test: &str) -> String {
    let test = name(own_name(suite, test));
    match suite {
        Some(suite) => format!("{} {test}", name(suite)),
        None => test,
    }
}

/// Returns the time of a test in brackets, if it is known, and the names of its suite and of the test.
pub(crate) fn time_and_title(test: &TestNote) -> String {
    bracket(test.time) + &title(test)
}

/// Returns the name of a suite in a table of a document.
pub(crate) fn suite_name(suite: Option<&str>) -> String {
    name_in_document(suite.unwrap_or("(no suite)"))
}

/// Returns the style of the word for a result or a contradiction.
pub(crate) fn style_of(status: &str) -> Style {
    match status {
        "FAIL" | "TIMEOUT" | "CRASH" | "ERROR" => Style::BoldRed,
        "PASS" => Style::BoldGreen,
        _ => Style::BoldYellow,
    }
}

/// Returns a time in seconds, with three digits after the point.
pub(crate) fn seconds_text(micros: u64) -> String {
    format!("{}.{:03}", micros / 1_000_000, micros / 1_000 % 1_000)
}

/// Returns a time in brackets and a space, at least as wide as `[   0.004s] `, or nothing without a time.
fn bracket(time: Option<u64>) -> String {
    time.map_or_else(String::new, |micros| {
        format!("[{:>8}s] ", seconds_text(micros))
    })
}

/// Returns the word for an outcome.
pub(crate) fn outcome_text(outcome: RunOutcome) -> &'static str {
    match outcome {
        RunOutcome::Success => "success",
        RunOutcome::NoTestsRun => "no-tests-run",
        RunOutcome::Cancelled { .. } => "cancelled",
        RunOutcome::Failed { .. } => "failed",
    }
}

/// Returns the summary of a run: its time in brackets, and all numbers.
pub(crate) fn summary(end: &RunEnd) -> String {
    let Numbers {
        finished,
        passed,
        flaky,
        slow,
        failed,
        timed_out,
        crashed,
        skipped,
        not_run,
    } = Numbers::of_run(end);
    let time = bracket(end.time);
    let slow = match slow {
        0 => String::new(),
        slow => format!(", {slow} slow"),
    };
    format!(
        "{time}{finished} tests run: {passed} passed ({flaky} flaky{slow}), \
         {failed} failed ({timed_out} timed out, {crashed} crashed), \
         {skipped} skipped, {not_run} not run"
    )
}

/// Returns a number and what it counts, such as `1 line` or `2 lines`.
pub(crate) fn counted(number: usize, one: &str) -> String {
    format!("{number} {}", plural(number, one))
}

/// Returns the word for this number of things, such as `line` or `lines`.
fn plural(number: usize, one: &str) -> String {
    let end = if number == 1 { "" } else { "s" };
    format!("{one}{end}")
}

/// Returns the numbers of a run that are not 0, in words with their styles, the worst first. `errors` is the number of
/// contradictions.
pub(crate) fn numbers_in_words(numbers: Numbers, errors: usize) -> Vec<(String, Style)> {
    let more = |parts: &[(usize, &str)]| {
        let parts = parts.iter().filter(|(number, _)| *number > 0);
        let parts: Vec<_> = parts
            .map(|(number, word)| format!("{number} {word}"))
            .collect();
        match parts.as_slice() {
            [] => String::new(),
            parts => format!(" ({})", parts.join(", ")),
        }
    };
    let failed = more(&[
        (numbers.timed_out, "timed out"),
        (numbers.crashed, "crashed"),
    ]);
    let passed = more(&[(numbers.flaky, "flaky"), (numbers.slow, "slow")]);
    let parts = [
        (
            numbers.failed as u128,
            format!("failed{failed}"),
            Style::BoldRed,
        ),
        (errors as u128, plural(errors, "error"), Style::BoldRed),
        (numbers.not_run, "not run".to_string(), Style::BoldYellow),
        (
            numbers.passed as u128,
            format!("passed{passed}"),
            Style::BoldGreen,
        ),
        (numbers.skipped, "skipped".to_string(), Style::BoldYellow),
    ];
    let parts = parts.into_iter().filter(|(number, _, _)| *number > 0);
    parts
        .map(|(number, words, style)| (format!("{number} {words}"), style))
        .collect()
}

/// Returns the progress of a run in one line, such as
/// `12 of 40 tests, 1 failed: ledger::ledger tests::asks_the_bank (5 s)`. The test is the one that has been running
/// longest. `seconds` is for how many whole seconds, and 0 leaves that out.
pub fn progress_text(run: &TestRun, seconds: u64) -> ReportText {
    let RunNumbers {
        ended,
        failed,
        announced,
    } = run.numbers();
    let of_all = if ended <= announced {
        format!(" of {announced}")
    } else {
        String::new()
    };
    let running = match run.first_running() {
        Some(FirstRunning { suite, name, .. }) => format!(": {}", title_of(suite, name)),
        None => String::new(),
    };
    let time = if running.is_empty() || seconds == 0 {
        String::new()
    } else {
        format!(" ({seconds} s)")
    };
    let mut text = ReportText::new();
    text.push(&format!(
        "{ended}{of_all} tests, {failed} failed{running}{time}"
    ));
    text
}

#[cfg(test)]
mod tests {
    use super::*;

    /// Numbers of a run without tests.
    const NONE: Numbers = Numbers {
        finished: 0,
        passed: 0,
        flaky: 0,
        slow: 0,
        failed: 0,
        timed_out: 0,
        crashed: 0,
        skipped: 0,
        not_run: 0,
    };

    #[test]
    fn numbers_that_are_0_are_left_out() {
        let failed = |failed, timed_out, crashed| Numbers {
            failed,
            timed_out,
            crashed,
            ..NONE
        };
        let passed = |passed, flaky, slow| Numbers {
            passed,
            flaky,
            slow,
            ..NONE
        };
        let rest = |skipped, not_run| Numbers {
            skipped,
            not_run,
            ..NONE
        };
        let words = |numbers, errors| {
            let parts = numbers_in_words(numbers, errors);
            let words: Vec<_> = parts.into_iter().map(|(words, _)| words).collect();
            words.join(", ")
        };
        for (numbers, errors, wanted) in [
            (NONE, 0, ""),
            (NONE, 1, "1 error"),
            (NONE, 2, "2 errors"),
            (failed(1, 0, 0), 0, "1 failed"),
            (failed(2, 1, 0), 0, "2 failed (1 timed out)"),
            (failed(2, 0, 2), 0, "2 failed (2 crashed)"),
            (failed(3, 2, 1), 0, "3 failed (2 timed out, 1 crashed)"),
            (passed(1, 0, 0), 0, "1 passed"),
            (passed(2, 1, 0), 0, "2 passed (1 flaky)"),
            (passed(2, 0, 2), 0, "2 passed (2 slow)"),
            (passed(3, 2, 1), 0, "3 passed (2 flaky, 1 slow)"),
            (rest(1, 0), 0, "1 skipped"),
            (rest(0, 1), 0, "1 not run"),
        ] {
            assert_eq!(words(numbers, errors), wanted);
        }
    }

    #[test]
    fn the_worst_numbers_come_first() {
        let numbers = Numbers {
            finished: 9,
            passed: 5,
            failed: 4,
            skipped: u128::MAX,
            not_run: 7,
            ..NONE
        };
        let mut text = ReportText::new();
        for (words, style) in numbers_in_words(numbers, 3) {
            text.push_style(style);
            text.push(&words);
        }
        let (red, yellow, green) = ("\u{1b}[1;31m", "\u{1b}[1;33m", "\u{1b}[1;32m");
        let most = u128::MAX;
        let wanted = format!(
            "{red}4 failed{red}3 errors{yellow}7 not run{green}5 passed{yellow}{most} skipped"
        );
        assert_eq!(text.finish(), wanted);
    }
}
