//! The form `json`: read back, it has the facts of the run, with all lines whole. The other forms show the same without the
//! middles of long lines.

use crate::properties::facts::{
    Facts, MARKS, Suite, attempts_of, crash_end, failure_of, outcome, own_name, problem_line,
    stopped_lines, suite_of_problem, turns_writing, without_colours, without_returns,
};
use deodarsieve::RunStats;
use deodarsieve_cli::report::options::{Options, OutputDisplay};
use deodarsieve_run::{Contradiction, Crash, Failure, FailureKind, Note, TestNote, TestOutcome};
use serde_json::{Value, json};
use std::rc::Rc;

/// What the forms except JSON show of a failed test. Its texts are not escaped.
pub struct ShownFailure {
    pub short: String,
    pub why: String,

    /// True if `why` leaves out some lines or parts of lines.
    pub is_partial: bool,
    pub place: Option<Place>,
}

impl ShownFailure {
    /// Returns the place in words, such as `src/lib.rs:9:32`.
    pub fn place_words(&self) -> Option<String> {
        let Place { file, line, column } = self.place.as_ref()?;
        let column = column.as_ref().map(|column| format!(":{column}"));
        Some(format!("{file}:{line}{}", column.unwrap_or_default()))
    }

    /// Returns the short reason without the place.
    pub fn reason(&self) -> String {
        let Some(place) = self.place_words() else {
            return self.short.clone();
        };
        let is_digit = |c: char| c.is_ascii_digit();
        let named = format!("panicked at {place}:");
        if let Some(at) = self.short.find(&named)
            && !self.short[at + named.len()..].starts_with(is_digit)
        {
            let (before, rest) = (
                &self.short[..at],
                self.short[at + named.len()..].trim_start(),
            );
            return before.to_string() + if rest.is_empty() { "panicked" } else { rest };
        }
        let front = self.short.strip_prefix(&format!("{place}: "));
        let end = || self.short.strip_suffix(&format!(" at {place}"));
        front.or_else(end).unwrap_or(&self.short).to_string()
    }
}

/// Returns a text of the run as the forms except JSON show it: of a line with more than 512 bytes the first 384, the number
/// of those that are left out, and the last 96. With `--output whole` it is the text itself.
pub fn with_cut_lines(text: &str, output: OutputDisplay) -> String {
    let cut = |line: &str| {
        let is_place = |place: &usize| line.is_char_boundary(*place);
        let front = (0..=384).rev().find(is_place).unwrap_or(0);
        let end = (line.len() - 96..=line.len()).find(is_place).unwrap_or(0);
        format!(
            "{} .. {} bytes .. {}",
            &line[..front],
            end - front,
            &line[end..]
        )
    };
    let lines = text.split('\n').map(|line| {
        let is_whole = line.len() <= 512 || output == OutputDisplay::Whole;
        if is_whole {
            line.to_string()
        } else {
            cut(line)
        }
    });
    lines.collect::<Vec<_>>().join("\n")
}

/// A place in the sources.
pub struct Place {
    pub file: String,
    pub line: String,
    pub column: Option<String>,
}

/// What tells two tests of a run apart: the suite, the name, and how many tests ended before.
type TestKey = (Option<*const String>, String, Option<usize>);

/// Returns what tells a test apart.
fn key_of(test: &TestNote) -> TestKey {
    let suite = test.suite.as_ref().map(Rc::as_ptr);
    (suite, test.name.clone(), test.ended)
}

/// What the forms show that is not in the notes of the run.
pub struct Shown {
    /// The failed tests, in the order in which they became known.
    pub failures: Vec<ShownFailure>,

    /// The failed attempts of the tests that passed.
    attempts: Vec<(TestKey, Vec<ShownFailure>)>,

    /// What explains the problems, in their order.
    pub problems: Vec<Option<String>>,

    /// How much is shown of why tests failed.
    pub options: Options,
}

impl Shown {
    /// Returns the failed attempts of a test that passed. A flaky test that then counted as failed has none.
    pub fn attempts(&self, test: &TestNote) -> &[ShownFailure] {
        let key = key_of(test);
        let found = self.attempts.iter().find(|(found, _)| *found == key);
        found.map_or(&[], |(_, attempts)| attempts)
    }
}

/// Returns a number as JSON.
fn number(number: u128) -> Value {
    serde_json::from_str(&number.to_string()).expect("a number is JSON")
}

/// Returns numbers of tests as JSON.
fn numbers(stats: &RunStats, crashed: usize, skipped: u128, not_run: u128) -> Value {
    json!({
        "finished": stats.finished_count,
        "passed": stats.passed,
        "flaky": stats.flaky,
        "slow": stats.passed_slow,
        "failed": stats.finished_count - stats.passed,
        "timed_out": stats.failed_timed_out,
        "crashed": crashed,
        "skipped": number(skipped),
        "not_run": number(not_run),
    })
}

/// Adds a member, if it has a value.
fn add(object: &mut Value, name: &str, value: Option<impl Into<Value>>) {
    if let Some(value) = value {
        object[name] = value.into();
    }
}

/// Returns a time as JSON.
fn time(micros: Option<u64>) -> Option<Value> {
    let text = crate::properties::facts::seconds(micros?);
    Some(serde_json::from_str(&text).expect("a time is JSON"))
}

/// Returns a test as JSON, without what is shown of a failure.
fn test_value(test: &TestNote) -> Value {
    let result = match &test.outcome {
        TestOutcome::Passed { .. } => "passed",
        TestOutcome::Skipped { .. } => "skipped",
        TestOutcome::Stopped => "stopped",
        TestOutcome::Failed(failure) => match failure.kind {
            FailureKind::TimedOut => "timed out",
            FailureKind::Crashed(_) => "crashed",
            FailureKind::Failed | FailureKind::WithoutEnd | FailureKind::Flaky => "failed",
        },
    };
    let mut value = json!({
        "name": own_name(test),
        "written_name": test.name,
        "result": result,
        "attempts": test.attempts,
        "slow": test.slow,
    });
    add(&mut value, "time", time(test.time));
    if let TestOutcome::Skipped { reason } = &test.outcome {
        add(&mut value, "reason", reason.as_deref());
    }
    let output = failure_of(test).and_then(|failure| failure.stdout.as_deref());
    add(&mut value, "output", output);
    value
}

/// Returns a suite as JSON.
fn suite_value(suite: &Suite<'_>) -> Value {
    let tests = suite.notes.iter().filter_map(|note| match note {
        Note::Test(test) => Some(test_value(test)),
        _ => None,
    });
    let mut value = json!({"tests": tests.collect::<Vec<_>>()});
    add(&mut value, "name", suite.name.map(|name| name.as_str()));
    if let Some(Note::Suite(over)) = suite.over {
        value["numbers"] = numbers(&over.stats, over.crashed, over.skipped, over.not_run);
        add(&mut value, "time", time(over.time));
    }
    value
}

/// Returns a problem as JSON, without what explains it.
fn problem_value(note: &Note) -> Value {
    let kind = match note {
        Note::NotRun(_) => "not run",
        _ => "disagreement",
    };
    let mut value = json!({"kind": kind, "line": problem_line(note)});
    add(
        &mut value,
        "suite",
        suite_of_problem(note).map(|name| name.as_str()),
    );
    value
}

/// Returns the report of a run as JSON, without what is not in its notes.
fn report_value(facts: &Facts) -> Value {
    let end = &facts.end;
    let mut problems: Vec<Value> = facts
        .problems()
        .map(|(note, _)| problem_value(note))
        .collect();
    if outcome(end) == "no-tests-run" {
        problems.insert(0, json!({"kind": "no tests", "line": "no test ran"}));
    }
    if let Some(line) = facts.cancelled_line() {
        problems.push(json!({"kind": "cancelled", "line": line}));
    }
    let suites = facts.suites();
    let suites: Vec<Value> = suites.iter().map(suite_value).collect();
    let mut value = json!({
        "outcome": outcome(end),
        "numbers": numbers(&end.stats, end.crashed, end.skipped, end.not_run),
        "suites": suites,
        "problems": problems,
    });
    add(&mut value, "time", time(end.time));
    value
}

/// Takes a member out of an object, if it is there.
fn take(object: &mut Value, name: &str) -> Option<Value> {
    object.as_object_mut()?.remove(name)
}

/// Takes a text out of an object, if it is there.
fn take_text(object: &mut Value, name: &str) -> Option<String> {
    take(object, name)?.as_str().map(str::to_string)
}

/// Takes what is shown of a failed test out of its object.
fn take_failure(test: &mut Value) -> ShownFailure {
    let place = take(test, "place").map(|mut place| Place {
        file: take_text(&mut place, "file").expect("a place has a file"),
        line: take_text(&mut place, "line").expect("a place has a line"),
        column: take_text(&mut place, "column"),
    });
    let why = take_text(test, "why").expect("a failed test has a reason");
    let is_number = |line: &str| {
        let ends = [" line)", " lines)", " line of output)", " lines of output)"];
        line.starts_with('(') && ends.iter().any(|end| line.ends_with(end))
    };
    ShownFailure {
        short: take_text(test, "short").expect("a failed test has a short reason"),
        is_partial: why.split('\n').any(is_number),
        why,
        place,
    }
}

/// Returns the elements of a list of an object.
fn list<'a>(object: &'a mut Value, name: &str) -> &'a mut Vec<Value> {
    object[name].as_array_mut().expect("it is a list")
}

/// Asserts that the JSON of a run has its facts, and returns what else the other forms show.
pub fn check(facts: &Facts, json: &str, options: Options) -> Shown {
    assert_eq!(json.find('\n'), Some(json.len() - 1), "it is one line");
    assert!(!MARKS.iter().any(|mark| json.contains(mark)), "{json}");
    let is_hidden = |c: char| c != '\n' && c.is_control() || turns_writing(c);
    assert!(!json.contains(is_hidden), "{json:?}");
    let mut value: Value = serde_json::from_str(json).expect("it is JSON");
    // The suites have the failed tests in another order than the run.
    let mut places = facts.suites().into_iter().flat_map(|suite| suite.notes);
    let (mut found, mut attempts) = (Vec::new(), Vec::new());
    for suite in list(&mut value, "suites") {
        for test in list(suite, "tests") {
            let note = places.find_map(|note| match note {
                Note::Test(test) => Some(test),
                _ => None,
            });
            if let Some(note) = note.filter(|note| failure_of(note).is_some()) {
                found.push((note, take_failure(test)));
            } else if let Some(note) = note {
                attempts.push((key_of(note), take_attempts(note, test, options)));
            }
        }
    }
    let problems = list(&mut value, "problems");
    let problems: Vec<_> = problems
        .iter_mut()
        .map(|problem| take_text(problem, "why"))
        .collect();
    assert_eq!(value, report_value(facts));
    check_stopped(facts, &problems);
    let no_tests = usize::from(outcome(&facts.end) == "no-tests-run");
    Shown {
        failures: facts
            .failures()
            .map(|(test, failure)| {
                let place = found
                    .iter()
                    .position(|(found, _)| std::ptr::eq(*found, test));
                let (_, shown) = found.swap_remove(place.expect("the failed test is in JSON"));
                let output = without_colours(facts.output_of(test, failure));
                checked(test, (failure, &output), shown, options)
            })
            .collect(),
        attempts,
        problems: problems[no_tests..]
            .iter()
            .map(|why| Some(with_cut_lines(why.as_deref()?, options.output)))
            .collect(),
        options,
    }
}

/// Takes the failed attempts of a test that passed out of its object, and returns them as the other forms show them.
fn take_attempts(test: &TestNote, object: &mut Value, options: Options) -> Vec<ShownFailure> {
    let found = take(object, "failed_attempts").unwrap_or(json!([]));
    let found = found.as_array().expect("it is a list").clone();
    let (failed, _) = attempts_of(test);
    assert_eq!(found.len(), failed.len());
    let found = found.into_iter().zip(&failed);
    let shown = found.map(|(mut attempt, failure)| {
        assert_eq!(take_text(&mut attempt, "output"), failure.stdout);
        let shown = take_failure(&mut attempt);
        assert_eq!(attempt, json!({}));
        let output = without_colours(failure.stdout.as_deref().unwrap_or(""));
        checked(test, (failure, &output), shown, options)
    });
    shown.collect()
}

/// Asserts what must be shown of a failed test, and returns what the forms except JSON show.
fn checked(
    test: &TestNote,
    failure: (&Failure, &str),
    shown: ShownFailure,
    options: Options,
) -> ShownFailure {
    check_failure(test, failure, &shown, options);
    let why = with_cut_lines(&shown.why, options.output);
    ShownFailure {
        short: with_cut_lines(&shown.short, options.output),
        is_partial: shown.is_partial || why != shown.why,
        why,
        place: shown.place,
    }
}

/// Asserts that the tests that were stopped are below the problem of their suite. `reasons` are what explains the
/// problems, after what explains that no test ran.
fn check_stopped(facts: &Facts, reasons: &[Option<String>]) {
    let no_tests = usize::from(outcome(&facts.end) == "no-tests-run");
    let suites = facts.suites();
    for ((note, _), why) in facts.problems().zip(&reasons[no_tests..]) {
        let is_theirs = |suite: &&Suite<'_>| match note {
            Note::NotRun(_) => suite.notes.iter().any(|own| std::ptr::eq(*own, note)),
            Note::Contradiction(Contradiction::OutsideSuite { .. }) => suite.name.is_none(),
            _ => false,
        };
        match suites.iter().find(is_theirs) {
            Some(suite) if suite.name.is_some() => {
                assert_eq!(*why, stopped_lines(&suite.notes));
            }
            // Several files may have tests outside of suites.
            Some(suite) => {
                let all = stopped_lines(&suite.notes).unwrap_or_default();
                assert!(all.contains(why.as_deref().unwrap_or("")), "{all}");
            }
            None => {}
        }
    }
}

/// Asserts what must be shown of a failed test, whatever its output says.
fn check_failure(
    test: &TestNote,
    (failure, all): (&Failure, &str),
    shown: &ShownFailure,
    options: Options,
) {
    let Options { limit, output, .. } = options;
    assert!(!shown.short.contains('\n'), "{:?}", shown.short);
    assert!(shown.short.len() <= limit);
    if let Some(place) = &shown.place {
        check_place(test, (failure, all), place);
    }
    assert_size(&shown.why, options);
    let stdout = all.trim_end();
    let reason = reason_of(test, failure);
    if let FailureKind::Crashed(crash) = &failure.kind {
        check_crash(crash, &reason, shown, limit);
        return;
    }
    let is_whole = match output {
        OutputDisplay::Auto => stdout.len() <= limit,
        OutputDisplay::Short => false,
        OutputDisplay::Whole => true,
    };
    let parts = [reason.as_str(), if is_whole { stdout } else { "" }];
    let parts: Vec<_> = parts.into_iter().filter(|part| !part.is_empty()).collect();
    let wanted = without_returns(&parts.join("\n"));
    if stdout.is_empty() && parts.is_empty() {
        assert_eq!(shown.why, "no output was captured");
    } else if is_whole {
        assert_eq!(shown.why, limited(&wanted, options), "{:?}", test.name);
    } else {
        // The line feed after a carriage return at its end may come with the next part.
        let wanted = wanted
            .split('\n')
            .next()
            .unwrap_or("")
            .trim_end_matches('\r');
        assert!(shown.why.starts_with(wanted), "{}", shown.why);
    }
}

/// Asserts that a crash is shown with its sentence and with how its program ended.
fn check_crash(crash: &Crash, sentence: &str, shown: &ShownFailure, limit: usize) {
    let mut lines = shown.why.split('\n');
    assert_eq!(lines.next(), Some(sentence));
    let end = crash.end.map(crash_end);
    let short = match &end {
        Some(end) => format!("{sentence} ({end})"),
        None => sentence.to_string(),
    };
    let is_short = shown.short.starts_with(first(&short, limit));
    assert!(is_short, "{}", shown.short);
    if end.is_some() && limit > sentence.len() * 4 {
        assert_eq!(lines.next().map(str::to_string), end);
    }
}

/// Asserts that why a test failed is within the limit, except its first and its last line and the lines with numbers of
/// lines.
fn assert_size(why: &str, options: Options) {
    let shown = with_cut_lines(why, options.output);
    let (why, _) = shown.rsplit_once("\n(").unwrap_or((&shown, ""));
    let lines: Vec<&str> = why.split('\n').collect();
    let ends = lines[0].len() + lines[lines.len() - 1].len();
    let numbers = 40;
    assert!(
        why.len() <= options.limit.saturating_add(ends + numbers),
        "{why}"
    );
}

/// Returns the first bytes of a text, cut at a character.
fn first(text: &str, limit: usize) -> &str {
    let mut end = text.len().min(limit);
    while !text.is_char_boundary(end) {
        end -= 1;
    }
    &text[..end]
}

/// Returns a text or, if it is above the limit, as many of its first lines as half of the limit holds, the number of those
/// that are left out, and as many of its last lines. The lines count as the forms except JSON show them.
pub fn limited(text: &str, options: Options) -> String {
    let Options { limit, output, .. } = options;
    let shown = with_cut_lines(text, output);
    if shown.len() <= limit {
        return text.to_string();
    }
    let (lines, shown): (Vec<&str>, Vec<&str>) =
        (text.split('\n').collect(), shown.split('\n').collect());
    let count = lines.len();
    let fits = |lines: &[&str]| lines.join("\n").len() <= limit / 2;
    let front = (1..=count)
        .rev()
        .find(|front| fits(&shown[..*front]))
        .unwrap_or(1);
    let end = (1..=count)
        .rev()
        .find(|end| fits(&shown[count - end..]))
        .unwrap_or(1);
    if front + end >= count {
        return text.to_string();
    }
    let (front, middle, end) = (&lines[..front], count - front - end, &lines[count - end..]);
    let word = if middle == 1 { "line" } else { "lines" };
    format!(
        "{}\n({middle} {word})\n{}",
        front.join("\n"),
        end.join("\n")
    )
}

/// Returns what a failed test shows above its output: the reason and the message.
pub fn reason_of(test: &TestNote, failure: &Failure) -> String {
    let reason = match &failure.kind {
        FailureKind::TimedOut => Some(match test.time {
            Some(micros) => format!(
                "timed out after {}s",
                crate::properties::facts::seconds(micros)
            ),
            None => "timed out".to_string(),
        }),
        FailureKind::Flaky => Some("flaky, and set to fail".to_string()),
        FailureKind::WithoutEnd => Some("no line says how it ended".to_string()),
        FailureKind::Failed => failure.reason.clone(),
        FailureKind::Crashed(crash) => {
            let ended = if crash.has_key {
                "the run"
            } else {
                "its process"
            };
            return match crash.running {
                0 | 1 => format!("{ended} ended before it did"),
                running => format!("one of {running} tests that ran when {ended} ended"),
            };
        }
    };
    let parts = [reason, failure.message.clone()];
    without_colours(&parts.into_iter().flatten().collect::<Vec<_>>().join("\n"))
}

/// Asserts that a place is in what is known of the test, and inside the repository.
fn check_place(test: &TestNote, (failure, output): (&Failure, &str), place: &Place) {
    let Place { file, line, column } = place;
    let outside = file.starts_with(['/', '\\']) || file.split(['/', '\\']).any(|it| it == "..");
    assert!(!outside && !file.is_empty(), "{file}");
    let wanted = match column {
        Some(column) => format!("{file}:{line}:{column}"),
        None => format!("(line {line})"),
    };
    let crash = match &failure.kind {
        FailureKind::Crashed(crash) => crash.prints.as_str(),
        _ => "",
    };
    let texts = [
        own_name(test),
        output,
        failure.message.as_deref().unwrap_or(""),
        crash,
    ];
    let has_place = |text: &&str| without_colours(text).contains(&wanted);
    assert!(texts.iter().any(has_place), "{wanted}");
}
