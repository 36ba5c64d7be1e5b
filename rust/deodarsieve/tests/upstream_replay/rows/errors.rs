//! Errors with causes as JSON, and the errors of units.

use crate::upstream_replay::rows::slices::slice_text;
use crate::upstream_replay::rows::words::{bytes_in, result_in, shown, text_in};
use bytes::Bytes;
use deodarsieve::{
    ChildError, ChildErrorDescription, ChildExecutionOutput, ChildExecutionOutputDescription,
    ChildFdError, ChildOutput, ChildOutputDescription, ChildSingleOutput, ChildSplitOutput,
    ChildStartError, ChildStartErrorDescription, ErrorList, ExecutionResult,
    ExecutionResultDescription, LiveSpec, SerializableError, UnitError, UnitErrorDescription,
    UnitKind,
};

/// Returns the texts of an error that a JSON text is read as, and the JSON text that is written for
/// it, or why the text is not an error.
#[cfg(feature = "serde_json")]
fn of_json(json: &str) -> Option<String> {
    let value: serde_json::Value = serde_json::from_str(json).ok()?;
    let error = match SerializableError::from_value(&value) {
        Ok(error) => error,
        Err(refusal) => return Some(format!("{refusal:?}")),
    };
    let mut text = error.to_string();
    for source in error.sources() {
        text.push_str(", because ");
        text.push_str(source.message());
    }
    Some(format!("{text}: {}", error.to_value()))
}

/// Returns an error without a cause.
fn error(message: String) -> SerializableError {
    SerializableError::from_message_and_causes(message, Vec::new())
}

/// Returns the text of an error around a process, and of its cause.
fn of_process(word: &str) -> Option<String> {
    let source = error(format!("cause of {word}"));
    let error = match word {
        "read stdout" => ChildError::Fd(ChildFdError::ReadStdout(source)),
        "read stderr" => ChildError::Fd(ChildFdError::ReadStderr(source)),
        "read combined" => ChildError::Fd(ChildFdError::ReadCombined(source)),
        "wait" => ChildError::Fd(ChildFdError::Wait(source)),
        "script output" => ChildError::SetupScriptOutput(source),
        _ => return of_start(word, source),
    };
    let described = ChildErrorDescription::from(error);
    Some(format!("{described}, because {}", described.cause()))
}

/// Returns the text of an error in starting a process, and of its cause.
fn of_start(word: &str, source: SerializableError) -> Option<String> {
    let error = match word {
        "temporary path" => ChildStartError::TempPath(source),
        "spawn" => ChildStartError::Spawn(source),
        _ => return None,
    };
    let described = ChildStartErrorDescription::from(error);
    Some(format!("{described}, because {}", described.cause()))
}

/// Returns the description of a list, the number of its errors, and the errors; `none` for no list.
fn list_text(list: Option<ErrorList<impl std::error::Error>>) -> String {
    let Some(list) = list else {
        return String::from("none");
    };
    let mut text = format!("{} ({})", list.description(), list.len());
    for error in list.iter() {
        text.push_str("; ");
        text.push_str(&shown(error));
    }
    text
}

/// Returns whether a unit has errors, its slice, all its errors, those in running it, and those of
/// its process.
fn errors_text(kind: UnitKind, output: &ChildExecutionOutputDescription<LiveSpec>) -> String {
    if !UnitErrorDescription::can_describe(kind, output) {
        return String::from("cannot be described");
    }
    let errors = UnitErrorDescription::new(kind, output);
    let lists = [
        list_text(errors.unit_errors()),
        list_text(errors.exec_fail_unit_errors()),
        list_text(errors.child_process_unit_errors()),
    ];
    // The lists with nextest's names have the same errors.
    let converted = [
        list_text(errors.all_error_list()),
        list_text(errors.exec_fail_error_list()),
        list_text(errors.child_process_error_list()),
    ];
    assert_eq!(lists, converted);
    let has_errors = output.has_errors();
    let slice = slice_text(errors.output_slice());
    format!("{has_errors} | {slice} | {}", lists.join(" | "))
}

fn captured(word: &str) -> Option<ChildSingleOutput> {
    bytes_in(word).map(|bytes| ChildSingleOutput::from(Bytes::from(bytes)))
}

/// Returns the output that words name: both streams in one, or two streams.
fn output_in(words: &[&str]) -> Option<ChildOutput> {
    match words {
        ["combined", both] => captured(both).map(|output| ChildOutput::Combined { output }),
        ["split", stdout, stderr] => Some(ChildOutput::Split(ChildSplitOutput {
            stdout: captured(stdout),
            stderr: captured(stderr),
        })),
        _ => None,
    }
}

/// Returns the lengths of the streams of output, if it is loaded.
fn lengths_text(output: &ChildOutputDescription) -> String {
    if !output.is_loaded() {
        return String::from("not loaded");
    }
    let (stdout, stderr) = output.stdout_stderr_len();
    format!("{stdout:?}, {stderr:?}")
}

/// Returns an error in reading standard output, `-` for none.
fn read_error(message: &str) -> Option<ErrorList<ChildError>> {
    let source = error(text_in(message)?);
    ErrorList::new(
        "reading",
        vec![ChildError::Fd(ChildFdError::ReadStdout(source))],
    )
}

/// Returns the result that a word names, `running` for none yet.
fn end_in(word: &str) -> Option<Option<ExecutionResult>> {
    match word {
        "running" => Some(None),
        _ => result_in(word).map(Some),
    }
}

/// Returns the answer for a unit with this output, described with the name of a signal.
fn of_left(kind: UnitKind, left: ChildExecutionOutput, name: &str) -> String {
    let described = ChildExecutionOutputDescription::from_output(left, text_in(name));
    errors_text(kind, &described)
}

/// Returns the errors of a unit by its result, the name of its signal, an error in reading from it,
/// and its output.
fn of_unit(kind: UnitKind, words: &[&str]) -> Option<String> {
    let [end, name, error, output @ ..] = words else {
        return None;
    };
    let left = ChildExecutionOutput::Output {
        result: end_in(end)?,
        output: output_in(output)?,
        errors: read_error(error),
    };
    Some(of_left(kind, left, name))
}

/// Returns the errors of a unit with this result whose output is not loaded.
fn of_unit_not_loaded(kind: UnitKind, end: &str) -> Option<String> {
    let left = ChildExecutionOutputDescription::Output {
        result: end_in(end)?.map(|end| ExecutionResultDescription::from_status(end, None)),
        output: ChildOutputDescription::NotLoaded,
        errors: None,
    };
    Some(errors_text(kind, &left))
}

/// Returns the errors of a unit that was not started.
fn of_unit_not_started(kind: UnitKind) -> String {
    let source = error(String::from("not found"));
    let left = ChildExecutionOutput::StartError(ChildStartError::Spawn(source));
    of_left(kind, left, "TERM")
}

/// Returns errors in reading standard output, with causes that are numbered from 0.
fn read_errors(count: u32) -> Option<ErrorList<ChildError>> {
    let errors = (0..count)
        .map(|number| error(format!("cause {number}")))
        .map(|source| ChildError::Fd(ChildFdError::ReadStdout(source)));
    ErrorList::new("reading", errors.collect())
}

/// Returns true if the cause of an error in reading has this number.
fn has_cause(error: &UnitError<'_>, number: usize) -> bool {
    matches!(error, UnitError::Output(described)
        if described.cause().message() == format!("cause {number}"))
}

/// Returns the description of a list, the number of its errors, and how many of them have a cause
/// with their position as its number, counted from 0; `none` for no list.
fn counted_text(list: Option<ErrorList<UnitError<'_>>>) -> String {
    let Some(list) = list else {
        return String::from("none");
    };
    let in_place = list
        .iter()
        .enumerate()
        .filter(|(number, error)| has_cause(error, *number))
        .count();
    format!(
        "{} ({}), {in_place} in place",
        list.description(),
        list.len()
    )
}

/// Returns the numbers of errors in the lists of a test that passed and could not be read from
/// `count` times: all errors, those in running it, and those of its process.
fn of_many_errors(count: &str) -> Option<String> {
    let left = ChildExecutionOutput::Output {
        result: Some(ExecutionResult::Pass),
        output: ChildOutput::Split(ChildSplitOutput {
            stdout: None,
            stderr: None,
        }),
        errors: read_errors(count.parse().ok()?),
    };
    let described = ChildExecutionOutputDescription::from_output(left, None);
    let errors = UnitErrorDescription::new(UnitKind::Test, &described);
    let lists = [
        counted_text(errors.unit_errors()),
        counted_text(errors.exec_fail_unit_errors()),
        counted_text(errors.child_process_unit_errors()),
    ];
    Some(lists.join(" | "))
}

/// Returns the result of the crates, or `None` if the question is of another group.
pub fn answer(parts: &[&str]) -> Option<String> {
    match parts {
        #[cfg(feature = "serde_json")]
        ["SerializableError", json] => of_json(json),
        ["error of a process", word] => of_process(word),
        ["stdout_stderr_len", "not loaded"] => {
            Some(lengths_text(&ChildOutputDescription::NotLoaded))
        }
        ["stdout_stderr_len", output @ ..] => Some(lengths_text(&ChildOutputDescription::from(
            output_in(output)?,
        ))),
        ["errors of a test", "not started"] => Some(of_unit_not_started(UnitKind::Test)),
        ["errors of a test", "not loaded", end] => of_unit_not_loaded(UnitKind::Test, end),
        ["errors of a script", "not loaded", end] => of_unit_not_loaded(UnitKind::Script, end),
        ["many errors of a test", count] => of_many_errors(count),
        ["errors of a test", words @ ..] => of_unit(UnitKind::Test, words),
        ["errors of a script", words @ ..] => of_unit(UnitKind::Script, words),
        _ => None,
    }
}
