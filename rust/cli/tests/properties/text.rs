//! The forms that are written while the run is read: `text`, `names`, `github`, and text with annotations.

use crate::properties::facts::{
    Facts, MARKS, attempts_of, bracket, controlled, crash_end, is_stopped, outcome, own_name,
    problem_line, shown, status_of, summary, title, turns_writing, without_colours,
    without_returns,
};
use crate::properties::json::{Place, Shown, ShownFailure, limited, reason_of, with_cut_lines};
use crate::properties::written::{SLOWEST, Written};
use deodarsieve::{CancelReason, TestOutputErrorSlice};
use deodarsieve_cli::report::options::Options;
use deodarsieve_run::{Contradiction, Crash, Failure, FailureKind, Note, TestNote, TestOutcome};
use std::cmp::Reverse;

/// What ends a colour.
const RESET: &str = "\u{1b}[0m";

/// How lines of a harness are made, if there were none.
const ADVICE: &str = "    \
    cargo test writes such lines with: RUSTC_BOOTSTRAP=1 cargo test -- -Z unstable-options --format json\n    \
    test-report -- cargo test does this by itself\n";

/// Which text a report has.
#[derive(Clone, Copy)]
struct Kind {
    /// True if it has a line for each test, and lists all tests.
    has_all: bool,

    /// True if texts of tests are as they were.
    is_raw: bool,

    /// How much is shown of why a test failed.
    options: Options,
}

impl Kind {
    /// Returns a text of a test as it is shown in a line.
    fn input(self, text: &str) -> String {
        if self.is_raw {
            text.to_string()
        } else {
            controlled(text, false)
        }
    }

    /// Returns a text that has no texts of tests which are as they were. Of others the whole text has its escapes.
    fn own(self, text: &str) -> String {
        if self.is_raw {
            without_commands(text)
        } else {
            text.to_string()
        }
    }

    /// Returns such a text after another one in its line.
    fn inside(self, text: &str) -> String {
        if self.is_raw {
            without_marks(text)
        } else {
            text.to_string()
        }
    }

    /// Returns the whole text.
    fn whole(self, text: &str) -> String {
        if self.is_raw {
            text.to_string()
        } else {
            without_commands(text)
        }
    }

    /// Returns a text of a test as it is shown under a line of the report.
    fn indented(self, text: &str) -> String {
        let lines = self.input(text);
        lines
            .split('\n')
            .map(|line| format!("    {line}\n"))
            .collect()
    }

    /// Returns why a test failed as it is shown under its line. Of crashed tests only the first shows the explanation.
    fn why(self, test: &TestNote, failure: &Failure, shown: &ShownFailure) -> String {
        match &failure.kind {
            FailureKind::Crashed(crash) if crash.above && has_explanation(crash) => {
                let sentence = reason_of(test, failure);
                let end = crash.end.map(crash_end);
                let parts = [
                    Some(sentence.as_str()),
                    end.as_deref(),
                    crash.cause.as_deref(),
                    Some("as above"),
                ];
                let parts: Vec<_> = parts.into_iter().flatten().collect();
                let parts = without_colours(&parts.join("\n"));
                let why = limited(&without_returns(&parts), self.options);
                self.indented(&with_cut_lines(&why, self.options.output))
            }
            _ => self.indented(&shown.why),
        }
    }
}

/// Returns a text whose lines are no commands of a CI system: of `::` at the start of a line the second colon is an escape.
fn without_commands(text: &str) -> String {
    let lines = text
        .split('\n')
        .map(|line| match line.trim_start().strip_prefix("::") {
            Some(rest) => format!("{}:\\u{{3a}}{rest}", &line[..line.len() - rest.len() - 2]),
            None => line.to_string(),
        });
    without_marks(&lines.collect::<Vec<_>>().join("\n"))
}

/// Returns a text in which the bracket after two number signs and letters is an escape.
fn without_marks(text: &str) -> String {
    let mut parts = text.split('[');
    let first = parts.next().unwrap_or_default().to_string();
    parts.fold(first, |text, part| {
        let before = text.trim_end_matches(|c: char| c == '#' || c.is_ascii_alphabetic());
        let is_mark = text[before.len()..].contains("##");
        text.clone() + if is_mark { "\\u{5b}" } else { "[" } + part
    })
}

/// Returns true if the prints before a crash explain it.
fn has_explanation(crash: &Crash) -> bool {
    let prints = without_colours(&crash.prints);
    let prints = Some(prints.as_bytes());
    TestOutputErrorSlice::heuristic_extract(prints, prints).is_some()
}

/// Returns the word for a test that passed.
fn passed_word(test: &TestNote) -> String {
    match test.attempts {
        0 | 1 => "PASS".to_string(),
        attempts => format!("FLAKY {attempts}/{attempts}"),
    }
}

/// Returns the lines of a test that passed, its failed attempts and, if all is shown, its output.
fn passed_lines(test: &TestNote, attempts: &[ShownFailure], kind: Kind) -> String {
    let (_, output) = attempts_of(test);
    let output = output.filter(|_| kind.has_all).unwrap_or_default();
    let output = without_returns(without_colours(&output).trim_end());
    let line = format!(
        "{} {}{}\n",
        passed_word(test),
        bracket(test.time),
        kind.inside(&title(test))
    );
    if is_after_interrupt(test) {
        return line;
    }
    let attempts = (1..).zip(attempts).map(|(number, shown)| {
        kind.indented(&format!("attempt {number} failed:")) + &kind.indented(&shown.why)
    });
    let lines = line + &attempts.collect::<String>();
    match output.as_str() {
        "" => lines,
        output => lines + &kind.indented(output),
    }
}

/// Returns true if a test became known after Ctrl-C. Then it has its line alone, and is not in the list.
fn is_after_interrupt(test: &TestNote) -> bool {
    test.cancel == Some(CancelReason::Interrupt)
}

/// Returns the text before the summary.
fn lines_before(facts: &Facts, shown: &Shown, kind: Kind) -> String {
    let mut failures = shown.failures.iter();
    let mut reasons = shown.problems.iter();
    let mut text = String::new();
    for (place, note) in facts.notes.iter().enumerate() {
        text += &kind.own(&without_report(facts, place));
        match note {
            Note::Test(test) => match &test.outcome {
                TestOutcome::Failed(failure) => {
                    let shown = failures.next().expect("each failed test is shown");
                    let times = match test.attempts {
                        0 | 1 => String::new(),
                        attempts => format!(" ({attempts} attempts)"),
                    };
                    let status = status_of(failure);
                    let title = kind.inside(&title(test));
                    text += &format!("{status} {}{title}{times}\n", bracket(test.time));
                    if !is_after_interrupt(test) {
                        text += &kind.why(test, failure, shown);
                    }
                }
                TestOutcome::Passed { .. } if kind.has_all && test.attempts <= 1 => {
                    text += &passed_lines(test, &[], kind);
                }
                TestOutcome::Skipped { .. } if kind.has_all => {
                    let title = kind.inside(&title(test));
                    text += &format!("SKIP {}{title}\n", bracket(test.time));
                }
                TestOutcome::Passed { .. } | TestOutcome::Skipped { .. } | TestOutcome::Stopped => {
                }
            },
            Note::Flaky(test) => {
                let attempts = shown.attempts(test);
                if kind.has_all || !attempts.is_empty() && !is_after_interrupt(test) {
                    text += &passed_lines(test, attempts, kind);
                }
            }
            Note::Contradiction(_) | Note::NotRun(_) if problem_line(note).is_some() => {
                let why = reasons.next().expect("each problem is shown");
                text += &problem_lines(note, why.as_deref(), kind);
            }
            Note::Contradiction(_) | Note::NotRun(_) | Note::Suite(_) => {}
        }
    }
    text += &kind.own(&without_report(facts, facts.notes.len()));
    let cancelled = facts.cancelled_line_of_text();
    let cancelled = cancelled.map(|line| line + "\n");
    text + &cancelled.unwrap_or_default()
}

/// Returns the lines of the programs without a report that ended before this note.
fn without_report(facts: &Facts, place: usize) -> String {
    let ended = facts.without_report.iter().filter(|(at, _)| *at == place);
    ended
        .map(|(_, name)| format!("{} has its own harness, and no report\n", shown(name)))
        .collect()
}

/// Returns the lines of a problem.
fn problem_lines(note: &Note, why: Option<&str>, kind: Kind) -> String {
    let line = kind.own(&problem_line(note).expect("it is a problem")) + "\n";
    let lacks_events = match note {
        Note::Contradiction(Contradiction::NoEvent { .. }) => true,
        Note::Contradiction(Contradiction::Cargo(report)) => report.lacks_events,
        _ => false,
    };
    let advice = if lacks_events { ADVICE } else { "" };
    // The list has the tests that were stopped in a cancelled run.
    let why = why.filter(|why| !why.split('\n').all(|line| line.ends_with(" was stopped")));
    line + &why.map(|why| kind.indented(why)).unwrap_or_default() + advice
}

/// Returns a line of the list at the end.
fn listed(status: &str, test: &TestNote, kind: Kind) -> String {
    let title = kind.inside(&title(test));
    format!("{status:>12} {}{title}\n", bracket(test.time))
}

/// Returns the list at the end. If it has all tests, it has the slowest ones, too.
fn list(facts: &Facts, shown: &Shown, kind: Kind) -> String {
    let passed = |test: &&TestNote| {
        matches!(test.outcome, TestOutcome::Passed { .. }) && !is_after_interrupt(test)
    };
    let at_once = |test: &&TestNote| test.attempts <= 1;
    let mut text = String::new();
    if kind.has_all {
        text += &slowest(facts, kind);
        for test in facts
            .tests()
            .filter(passed)
            .filter(at_once)
            .filter(|test| !test.slow)
        {
            text += &listed("PASS", test, kind);
        }
        for test in facts.tests() {
            if matches!(test.outcome, TestOutcome::Skipped { .. }) && !is_after_interrupt(test) {
                text += &listed("SKIP", test, kind);
            }
        }
    }
    for test in facts
        .tests()
        .filter(passed)
        .filter(at_once)
        .filter(|test| test.slow)
    {
        text += &listed("SLOW", test, kind);
    }
    let mut flaky: Vec<_> = facts
        .tests()
        .filter(passed)
        .filter(|test| test.attempts > 1)
        .collect();
    flaky.sort_by_key(|test| test.ended);
    for test in flaky {
        let mut line = listed(&passed_word(test), test, kind);
        if let Some(first) = shown.attempts(test).first() {
            line.insert_str(
                line.len() - 1,
                &format!(": {}", in_list(&first.short, kind)),
            );
        }
        text += &line;
    }
    text += &failed_tests(facts, shown, kind);
    for note in &facts.notes {
        if let Note::Test(test) = note
            && is_stopped(note)
            && test.cancel.is_some()
        {
            text += &listed("STOPPED", test, kind);
        }
    }
    for line in contradictions(facts) {
        text += &format!("       ERROR {}\n", kind.inside(&line));
    }
    text
}

/// Returns the lines of the contradictions.
fn contradictions(facts: &Facts) -> impl Iterator<Item = String> {
    let notes = facts.notes.iter();
    let contradictions = notes.filter(|note| matches!(note, Note::Contradiction(_)));
    contradictions.filter_map(problem_line)
}

/// What failed tests of one entry have in common: the status, the place, and the reason without it.
pub type Cause = (&'static str, Option<String>, String);

/// Returns the failed tests with their causes: those of one cause together, where the first of them is by suite and name.
/// A test after Ctrl-C is left out if `are_listed` is true.
pub fn groups<'a>(
    facts: &'a Facts,
    shown: &Shown,
    are_sorted: bool,
) -> Vec<(Cause, Vec<(&'a TestNote, usize)>)> {
    let failures = facts.failures().zip(&shown.failures).enumerate();
    let mut failures: Vec<_> = failures
        .map(|(place, ((test, failure), shown))| {
            let cause = (status_of(failure), shown.place_words(), shown.reason());
            (test, cause, place)
        })
        .collect();
    if are_sorted {
        failures.retain(|(test, _, _)| !is_after_interrupt(test));
        failures.sort_by_key(|(test, _, _)| {
            (test.suite.as_deref().cloned(), own_name(test).to_string())
        });
    }
    let mut groups: Vec<(Cause, Vec<(&TestNote, usize)>)> = Vec::new();
    for (test, cause, place) in failures {
        match groups.iter_mut().find(|(own, _)| *own == cause) {
            Some((_, tests)) => tests.push((test, place)),
            None => groups.push((cause, vec![(test, place)])),
        }
    }
    groups
}

/// Returns a short reason as the list shows it.
fn in_list(reason: &str, kind: Kind) -> String {
    if kind.is_raw {
        reason.to_string()
    } else {
        controlled(&reason.replace('\t', " "), false)
    }
}

/// Returns the lines of the failed tests in the list.
fn failed_tests(facts: &Facts, shown: &Shown, kind: Kind) -> String {
    let mut text = String::new();
    for ((status, place, reason), tests) in groups(facts, shown, true) {
        let place = place.map(|place| kind.inside(&controlled(&place, true)) + ": ");
        let place = place.unwrap_or_default();
        let reason = in_list(&reason, kind);
        let titles: Vec<_> = tests.iter().map(|(test, _)| title(test)).collect();
        match titles.as_slice() {
            [title] => {
                let title = kind.inside(title);
                text += &format!("{status:>12} {place}{title}: {reason}\n");
            }
            titles => {
                text += &format!("{status:>12} {} tests: {place}{reason}\n", titles.len());
                for title in titles {
                    text += &format!("             {}\n", kind.own(title));
                }
            }
        }
    }
    text
}

/// Returns the lines of the slowest tests.
fn slowest(facts: &Facts, kind: Kind) -> String {
    let mut timed: Vec<_> = slowest_tests(facts);
    timed.truncate(SLOWEST);
    timed
        .iter()
        .map(|test| listed("SLOWEST", test, kind))
        .collect()
}

/// Returns the tests that ran and whose times are known, the slowest first.
pub fn slowest_tests(facts: &Facts) -> Vec<&TestNote> {
    let ran = |test: &&TestNote| !matches!(test.outcome, TestOutcome::Skipped { .. });
    let mut timed: Vec<_> = facts
        .tests()
        .filter(ran)
        .filter(|test| test.time.is_some())
        .collect();
    timed.sort_by_key(|test| Reverse(test.time));
    timed
}

/// Returns the numbers of a run that are not 0, in words.
fn numbers_of(facts: &Facts) -> String {
    let (stats, end) = (&facts.end.stats, &facts.end);
    let errors = contradictions(facts).count();
    let more = |parts: [(usize, &str); 2]| match parts {
        [(0, _), (0, _)] => String::new(),
        [(one, word), (0, _)] | [(0, _), (one, word)] => format!(" ({one} {word})"),
        [(one, word), (two, other)] => format!(" ({one} {word}, {two} {other})"),
    };
    let failed = more([
        (stats.failed_timed_out, "timed out"),
        (end.crashed, "crashed"),
    ]);
    let passed = more([(stats.flaky, "flaky"), (stats.passed_slow, "slow")]);
    let parts = [
        (
            (stats.finished_count - stats.passed) as u128,
            format!("failed{failed}"),
        ),
        (
            errors as u128,
            if errors == 1 { "error" } else { "errors" }.to_string(),
        ),
        (end.not_run, "not run".to_string()),
        (stats.passed as u128, format!("passed{passed}")),
        (end.skipped, "skipped".to_string()),
    ];
    let parts = parts.iter().filter(|(number, _)| *number > 0);
    let parts: Vec<_> = parts
        .map(|(number, words)| format!("{number} {words}"))
        .collect();
    if parts.is_empty() {
        "no test ran".to_string()
    } else {
        parts.join(", ")
    }
}

/// Returns the whole text of a report.
fn text(facts: &Facts, shown: &Shown, kind: Kind) -> String {
    let list = list(facts, shown, kind);
    let line = if list.is_empty() {
        ""
    } else {
        "------------\n"
    };
    kind.whole(&format!(
        "{}{line}{list}{}\n------------\n     Summary {}\noutcome {}\n",
        lines_before(facts, shown, kind),
        numbers_of(facts),
        summary(&facts.end),
        outcome(&facts.end)
    ))
}

/// Returns an annotation with the escapes that GitHub asks for.
fn annotation(kind: &str, properties: &[(&str, &str)], message: &str) -> String {
    let data = |text: &str| {
        let text = text.replace('%', "%25");
        text.replace('\r', "%0D").replace('\n', "%0A")
    };
    let value = |text: &str| data(text).replace(':', "%3A").replace(',', "%2C");
    let properties = properties.iter();
    let properties: Vec<_> = properties
        .map(|(name, text)| format!("{name}={}", value(text)))
        .collect();
    let space = if properties.is_empty() { "" } else { " " };
    let properties = without_marks(&properties.join(","));
    let message = without_marks(&data(message));
    format!("::{kind}{space}{properties}::{message}\n")
}

/// Returns a text of a test in an annotation, in which GitHub has an escape of its own for a carriage return.
fn in_annotation(text: &str) -> String {
    let parts = text.split('\r').map(|part| controlled(part, false));
    parts.collect::<Vec<_>>().join("\r")
}

/// Returns the annotations of the failed tests: one for those with the same cause.
fn failure_annotations(facts: &Facts, shown: &Shown) -> String {
    let mut text = String::new();
    for ((_, place, reason), tests) in groups(facts, shown, false) {
        let first = &shown.failures[tests[0].1];
        let mut properties = Vec::new();
        let file;
        if let Some(Place {
            file: path,
            line,
            column,
        }) = &first.place
        {
            file = controlled(path, true);
            properties.push(("file", file.as_str()));
            properties.push(("line", line.as_str()));
            properties.extend(column.as_ref().map(|column| ("col", column.as_str())));
        }
        let titles: Vec<_> = tests.iter().map(|(test, _)| title(test)).collect();
        let place = place.map(|place| place + ": ").unwrap_or_default();
        let (head, names) = match titles.as_slice() {
            [title] => (title.clone(), String::new()),
            titles => {
                let names = limited(&titles.join("\n"), shown.options);
                let names = with_cut_lines(&names, shown.options.output);
                (
                    format!("{} tests: {place}{reason}", titles.len()),
                    format!("\n{names}"),
                )
            }
        };
        let head = in_annotation(&head);
        properties.push(("title", head.as_str()));
        let message = format!("{head}{names}\n{}", in_annotation(&first.why));
        text += &annotation("error", &properties, &message);
    }
    text
}

/// Returns the annotations of a run.
fn annotations(facts: &Facts, shown: &Shown) -> String {
    let mut reasons = shown.problems.iter();
    let mut text = String::new();
    for note in &facts.notes {
        if matches!(note, Note::Contradiction(_) | Note::NotRun(_))
            && let Some(mut message) = problem_line(note)
        {
            if let Some(why) = reasons.next().expect("each problem is shown") {
                message += &format!("\n{}", in_annotation(why));
            }
            text += &annotation("error", &[], &message);
        }
    }
    if let Some(line) = facts.cancelled_line() {
        text += &annotation("error", &[], &line);
    }
    text += &failure_annotations(facts, shown);
    let end = format!("{}, outcome {}", summary(&facts.end), outcome(&facts.end));
    text + &annotation("notice", &[], &end)
}

/// Returns the lines of a text that are commands of GitHub, and the others.
fn commands_in(text: &str) -> (String, String) {
    let lines = text.split_inclusive('\n');
    lines.partition(|line| line.trim_start().starts_with("::"))
}

/// Asserts that a text has no control character except line feeds, tabs and whole styles, no character that changes the
/// direction of writing, no mark of a CI system, and no style that goes on in the next line.
fn assert_safe(text: &str) {
    let plain = without_colours(text);
    let is_safe = |c: char| matches!(c, '\t' | '\n') || !(c.is_control() || turns_writing(c));
    assert!(plain.chars().all(is_safe), "{text:?}");
    assert!(!MARKS.iter().any(|mark| plain.contains(mark)), "{text:?}");
    for line in text.split('\n') {
        let last = line.rfind("\u{1b}[").map(|at| &line[at..]);
        assert!(
            last.is_none_or(|last| last.starts_with(RESET)),
            "a style goes on: {text:?}"
        );
    }
}

/// Asserts that the forms have the facts of the run and what is shown of them, and nothing else.
pub fn check(facts: &Facts, shown: &Shown, written: &Written, options: Options) {
    for text in [
        &written.text,
        &written.all,
        &written.annotated,
        &written.github,
        &written.names,
    ] {
        assert_safe(text);
    }
    let kind = Kind {
        has_all: false,
        is_raw: false,
        options,
    };
    assert_eq!(written.text, text(facts, shown, kind));
    let raw = Kind {
        is_raw: true,
        ..kind
    };
    // A carriage return may be before a colour at the end of its line.
    let with_marks = |text: &str| without_colours(text).replace('\r', "");
    assert_eq!(
        with_marks(&written.raw),
        with_marks(&text(facts, shown, raw))
    );
    let all = Kind {
        has_all: true,
        ..kind
    };
    assert_eq!(without_colours(&written.all), text(facts, shown, all));
    assert_eq!(commands_in(&written.text).0, "");
    assert_eq!(commands_in(&written.all).0, "");
    assert_eq!(commands_in(&written.names).0, "");
    assert_eq!(written.github, annotations(facts, shown));
    let both = (written.github.clone(), written.text.clone());
    assert_eq!(commands_in(&written.annotated), both);
    let names = facts
        .failures()
        .map(|(test, _)| controlled(&test.name, true) + "\n");
    assert_eq!(written.names, without_commands(&names.collect::<String>()));
    check_colours(facts, shown, &written.all);
}

/// Asserts that only the words for results and numbers have a colour, each its own.
fn check_colours(facts: &Facts, shown: &Shown, all: &str) {
    // What tests wrote is after four spaces, and before the list.
    let (lines, list) = all.split_once("\n------------\n").unwrap_or(("", all));
    let own = lines.split('\n').filter(|line| !line.starts_with("    "));
    let own: Vec<_> = own.chain([list]).collect();
    let own = own.join("\n");
    let parts = own.split(RESET);
    let words = parts.filter_map(|part| part.rsplit_once('\u{1b}'));
    let (mut count, mut numbers) = (0, Vec::new());
    for (_, word) in words {
        let (style, word) = word.split_once('m').expect("a colour ends with m");
        let is_number = word.starts_with(|c: char| c.is_ascii_digit());
        let wanted = match word {
            "FAIL" | "TIMEOUT" | "CRASH" | "ERROR" => "[1;31",
            "PASS" => "[1;32",
            _ if is_number && (word.contains("failed") || word.contains("error")) => "[1;31",
            _ if is_number && word.contains("passed") => "[1;32",
            _ => "[1;33",
        };
        let is_word = [
            "FAIL", "TIMEOUT", "CRASH", "ERROR", "PASS", "SKIP", "STOPPED", "SLOW", "SLOWEST",
        ]
        .contains(&word);
        assert!(is_word || is_number || word.starts_with("FLAKY "), "{word}");
        assert_eq!(style, wanted, "{word}");
        if is_number {
            numbers.push(word);
        } else {
            count += 1;
        }
    }
    let has_numbers = numbers_of(facts) != "no test ran";
    let wanted = if has_numbers {
        numbers_of(facts)
    } else {
        String::new()
    };
    assert_eq!(numbers.join(", "), wanted);
    let flaky = facts
        .notes
        .iter()
        .filter(|note| matches!(note, Note::Flaky(_)))
        .count();
    let slowest = slowest_tests(facts).len().min(SLOWEST);
    // A test has its word when it ends and in the list. A flaky one passes before it counts. A contradiction, and a test that
    // was stopped because the run was cancelled, has one in the list alone.
    let words = |test: &TestNote| match &test.outcome {
        TestOutcome::Stopped => usize::from(test.cancel.is_some()),
        TestOutcome::Passed { .. } if test.attempts > 1 => usize::from(!is_after_interrupt(test)),
        TestOutcome::Passed { .. } | TestOutcome::Skipped { .. } => {
            1 + usize::from(!is_after_interrupt(test))
        }
        TestOutcome::Failed(_) => 1,
    };
    let tests: usize = facts.tests().map(words).sum();
    // Failed tests with the same cause have one word in the list.
    let listed = groups(facts, shown, true).len();
    assert_eq!(
        count,
        tests + flaky + contradictions(facts).count() + slowest + listed
    );
}
