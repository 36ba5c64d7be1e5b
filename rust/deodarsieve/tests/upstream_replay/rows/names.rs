//! Modes, kinds, reasons, settings and constants, and their texts.

use crate::upstream_replay::visibility::named_display;
use crate::upstream_replay::words::named_reason;
use deodarsieve::{
    FlakyResult, NextestRunMode, SIGTERM, UnitKind, UnitTerminateReason, UnitTerminateSignal,
};

fn of_mode(word: &str) -> Option<String> {
    let mode = match word {
        "test" => NextestRunMode::Test,
        "benchmark" => NextestRunMode::Benchmark,
        "default" => NextestRunMode::default(),
        _ => return None,
    };
    Some(format!("{mode}, {}", mode.is_benchmark()))
}

fn of_kind(word: &str) -> Option<String> {
    let (kind, waiting, executing) = match word {
        "test" => (
            UnitKind::Test,
            UnitKind::WAITING_ON_TEST_MESSAGE,
            UnitKind::EXECUTING_TEST_MESSAGE,
        ),
        "script" => (
            UnitKind::Script,
            UnitKind::WAITING_ON_SCRIPT_MESSAGE,
            UnitKind::EXECUTING_SCRIPT_MESSAGE,
        ),
        _ => return None,
    };
    Some(format!(
        "{}, {waiting}, {}, {executing}",
        kind.waiting_on_message(),
        kind.executing_message()
    ))
}

fn of_reason(word: &str) -> Option<String> {
    let reason = named_reason(word)??;
    Some(String::from(reason.to_static_str()))
}

/// Returns whether output is displayed at once, and at the end.
fn of_display(word: &str) -> Option<String> {
    let display = named_display(word)?;
    Some(format!(
        "{}, {}",
        display.is_immediate(),
        display.is_final()
    ))
}

/// Returns the text of a reason why the runner ends a unit.
fn of_termination(word: &str) -> Option<String> {
    let reason = match word {
        "Timeout" => UnitTerminateReason::Timeout,
        "Signal" => UnitTerminateReason::Signal,
        "Interrupt" => UnitTerminateReason::Interrupt,
        _ => return None,
    };
    Some(reason.to_string())
}

/// Returns the text of a signal by which the runner ends a unit.
fn of_termination_signal(word: &str) -> Option<String> {
    let signal = match word {
        "Interrupt" => UnitTerminateSignal::Interrupt,
        "Term" => UnitTerminateSignal::Term,
        "Hangup" => UnitTerminateSignal::Hangup,
        "Quit" => UnitTerminateSignal::Quit,
        "Kill" => UnitTerminateSignal::Kill,
        _ => return None,
    };
    Some(signal.to_string())
}

/// Returns a constant, or a value by default.
fn of_constant(name: &str) -> Option<String> {
    match name {
        "SIGTERM" => Some(SIGTERM.to_string()),
        "default FlakyResult" => Some(format!("{:?}", FlakyResult::default())),
        _ => None,
    }
}

/// Returns the result of the crates, or `None` if the question is of another group.
pub fn answer(parts: &[&str]) -> Option<String> {
    match parts {
        ["mode", word] => of_mode(word),
        ["kind", word] => of_kind(word),
        ["reason", word] => of_reason(word),
        ["display", word] => of_display(word),
        ["UnitTerminateReason", word] => of_termination(word),
        ["UnitTerminateSignal", word] => of_termination_signal(word),
        [name] => of_constant(name),
        _ => None,
    }
}
