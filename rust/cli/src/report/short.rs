//! The short reason: one line that says why a test failed.

use crate::report::colours::without_colours;
use crate::report::ends::crash_end;
use crate::report::explanation::Found;
use crate::report::failure::{crash_of, crash_words, reason_of};
use crate::report::lines::{first_line, last_written, ten_written};
use crate::report::place::Place;
use crate::report::thread_panic::thread_name;
use deodarsieve::counted::{HeadSpan, last_head};
use deodarsieve_run::{Crash, Failure, TestNote};
use std::borrow::Cow;

/// Returns the short reason of a failure, without colours. `message` is its message without colours, and `found` what is
/// found in its output.
pub(crate) fn short_reason(
    test: &TestNote,
    failure: &Failure,
    message: Option<&str>,
    found: &Found<'_>,
) -> String {
    let documented = Place::documented(test);
    if let Some(crash) = crash_of(failure) {
        return crash_reason(crash, found, documented);
    }
    let reason = reason_of(failure, test.time);
    let reason = reason.map(|reason| without_colours(&reason).into_owned().into());
    let said = reason.or_else(|| message.map(Cow::from));
    // Of an output that was not captured, the lines after a panic may be of another test.
    if said.is_none()
        && failure.stdout.is_some()
        && let Some(reason) = better_reason(found, documented)
    {
        return reason;
    }
    let first = said
        .or_else(|| found.slice_text().map(Cow::from))
        .or_else(|| ten_written(found.output).map(Cow::from))
        .unwrap_or(Cow::from("no output was captured"));
    short_of(&first, documented)
}

/// Returns the short reason of a crash: its sentence, how the process ended if that is known, and, if the prints before
/// it have the head of a panic, what the first one says.
fn crash_reason(crash: &Crash, found: &Found<'_>, documented: Option<Place<'_>>) -> String {
    let mut reason = crash_words(crash);
    let end = crash.end.map(crash_end);
    if let Some(end) = end.or_else(|| end_in(crash.cause.as_deref()?)) {
        reason.push_str(&format!(" ({end})"));
    }
    if let Some(head) = found.first {
        reason.push_str(": ");
        reason.push_str(&said_by(found.output, head, documented));
    }
    reason
}

/// Returns how a process ended, by the brackets at the end of the cause that cargo names: `signal: 6, SIGABRT` for
/// `(signal: 6, SIGABRT: process abort signal)`, and `status 7` for `(exit status: 7)`. Returns `None` if they say
/// something else, or were cut off.
fn end_in(cause: &str) -> Option<String> {
    let (_, end) = cause.trim_end().strip_suffix(')')?.rsplit_once('(')?;
    if let Some(status) = end.strip_prefix("exit status: ") {
        return Some(format!("status {status}"));
    }
    let signal = end.strip_prefix("signal: ")?;
    let (signal, _) = signal.split_once(": ").unwrap_or((signal, ""));
    Some(format!("signal: {signal}"))
}

/// Returns the first line of why a test failed. If this line is the head of a panic, it is what the panic says.
fn short_of(why: &str, documented: Option<Place<'_>>) -> String {
    let (line, _) = first_line(why);
    match last_head(line.as_bytes()) {
        Some(head) if head.start == 0 => said_at(&why[head.stop..], documented),
        _ => line.to_string(),
    }
}

/// Returns what the head of a panic says.
fn said_by(output: &str, head: HeadSpan, documented: Option<Place<'_>>) -> String {
    said_at(output[head.stop..].trim_end(), documented)
}

/// Returns what a panic says: `panicked at`, its place, and the next line too if the line of the place ends in a colon.
/// `place` is the text from the place on. `documented` is the place of a documentation test in the sources. It replaces
/// the place of the panic, or comes before a panic in another file.
fn said_at(place: &str, documented: Option<Place<'_>>) -> String {
    let (line, rest) = first_line(place);
    let words = match documented {
        None => format!("panicked at {line}"),
        Some(own) if own.is_for(line) => format!("panicked at {}:{}:", own.file, own.line),
        Some(own) => format!("{}:{}: panicked at {line}", own.file, own.line),
    };
    match first_line(rest).0 {
        next if words.ends_with(':') && !next.is_empty() => format!("{words} {next}"),
        _ => words,
    }
}

/// Returns what says more than the slice that explains a failure, if that is a panic: an error that the test returned
/// after it, or the panic of another thread before it.
fn better_reason(found: &Found<'_>, documented: Option<Place<'_>>) -> Option<String> {
    if !found.is_panic() {
        return None;
    }
    match last_written(found.output) {
        last if last.starts_with("Error: ") => Some(last.to_string()),
        _ => other_thread(found).map(|head| said_by(found.output, head, documented)),
    }
}

/// Returns the head of the first panic, if it is of another thread than the last panic.
pub(crate) fn other_thread(found: &Found<'_>) -> Option<HeadSpan> {
    let (first, last) = (found.first?, found.last?);
    let is_other = thread_name(found.output, first) != thread_name(found.output, last);
    is_other.then_some(first)
}
