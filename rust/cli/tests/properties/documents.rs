//! The page and the summary.

use crate::properties::facts::{
    Facts, Suite, escaped, failure_of, outcome, own_name, seconds, shown, status_of, suite_of,
    summary, without_colours, without_returns,
};
use crate::properties::groups::{Group, attempts_of, differ, groups, heading, left_out};
use crate::properties::json::Shown;
use crate::properties::text::slowest_tests;
use crate::properties::xml::{Element, read, resolved};
use deodarsieve::RunStats;
use deodarsieve_run::{Note, TestNote, TestOutcome};

/// Returns a text with the characters that XML does not allow replaced, as a template does.
pub fn allowed(text: &str) -> String {
    text.replace(['\u{fffe}', '\u{ffff}'], "\u{fffd}")
}

/// Returns a text of the run as a document shows it.
pub fn value(text: &str) -> String {
    allowed(&escaped(text))
}

/// Returns a text of a test as a document shows it. Only the page has its colours, as classes.
pub fn said(text: &str) -> String {
    value(&without_colours(text))
}

/// Returns a text of a test of which all is shown, as a document shows it.
pub fn said_whole(text: &str) -> String {
    value(&without_returns(&without_colours(text)))
}

/// Returns the names of the suite of a test and of the test as a document shows them.
pub fn shown_title(test: &TestNote) -> String {
    let suite = suite_of(test).map(|suite| value(&shown(suite)) + " ");
    suite.unwrap_or_default() + &value(&shown(own_name(test)))
}

/// Returns the summary of a run as documents have it: the time is at its end.
fn document_summary(facts: &Facts) -> String {
    let end = &facts.end;
    let line = summary(end);
    let line = line
        .strip_prefix(&crate::properties::facts::bracket(end.time))
        .unwrap_or(&line);
    match end.time {
        Some(micros) => format!("{line}, in {}s", seconds(micros)),
        None => line.to_string(),
    }
}

/// Returns the lines of the problems of a document, and what explains them.
fn problems(facts: &Facts, shown: &Shown) -> Vec<(String, Option<String>)> {
    let own = facts.problems().zip(&shown.problems);
    let own = own.map(|((_, line), why)| (value(&line), why.as_deref().map(value)));
    let cancelled = facts.cancelled_line().map(|line| (line, None));
    let no_tests = outcome(&facts.end) == "no-tests-run";
    let no_tests = no_tests.then(|| ("no test ran".to_string(), None));
    no_tests.into_iter().chain(own).chain(cancelled).collect()
}

/// Returns a time as a table has it.
fn cell(time: Option<u64>) -> String {
    time.map_or("–".to_string(), |micros| seconds(micros) + "s")
}

/// Returns the numbers of tests in words, each with the number.
fn numbers(stats: &RunStats, skipped: u128, not_run: u128) -> Vec<(u128, &'static str)> {
    let failed = stats.finished_count - stats.passed;
    let numbers = [
        (stats.passed as u128, "passed"),
        (failed as u128, "failed"),
        (skipped, "skipped"),
        (not_run, "not run"),
    ];
    numbers
        .into_iter()
        .filter(|(number, _)| *number > 0)
        .collect()
}

/// Returns the rows of the tables of the page, by the headings of their sections.
fn rows(facts: &Facts, shown: &Shown) -> Vec<(&'static str, Vec<String>)> {
    let flaky = facts
        .tests()
        .filter(|test| failure_of(test).is_none() && test.attempts > 1);
    let flaky = flaky.filter(|test| matches!(test.outcome, TestOutcome::Passed { .. }));
    let flaky = flaky.flat_map(|test| {
        let row = format!("{}{}{}", shown_title(test), test.attempts, cell(test.time));
        let attempts = (1..).zip(shown.attempts(test)).map(|(number, shown)| {
            let (short, why) = (value(&shown.short), said(&shown.why));
            format!("\nattempt {number} failed: {short}\n{why}\n")
        });
        [row].into_iter().chain(attempts)
    });
    let suites = facts.suites();
    let suites = suites.iter().filter_map(suite_row);
    let timed = slowest_tests(facts);
    let longest = timed.first().and_then(|test| test.time).unwrap_or(0).max(1);
    let slowest = timed.iter().take(10).map(|test| {
        let time = test.time.unwrap_or(0);
        let share = u128::from(time) * 100 / u128::from(longest);
        format!("{}{share} %{}s", shown_title(test), seconds(time))
    });
    let skips = facts.tests().filter_map(|test| match &test.outcome {
        TestOutcome::Skipped {
            reason: Some(reason),
        } => Some(shown_title(test) + &said_whole(reason)),
        _ => None,
    });
    vec![
        ("Flaky tests", flaky.collect()),
        ("Suites", suites.collect()),
        ("Slowest tests", slowest.collect()),
        ("Skipped tests", skips.collect()),
    ]
}

/// Returns the text of the row of a suite that is over.
fn suite_row(suite: &Suite<'_>) -> Option<String> {
    let Some(Note::Suite(over)) = suite.over else {
        return None;
    };
    let numbers = numbers(&over.stats, over.skipped, over.not_run);
    if numbers.is_empty() && suite.name.is_none() {
        return None;
    }
    let bar: String = numbers
        .iter()
        .map(|(number, _)| format!("{number} "))
        .collect();
    let words: Vec<_> = numbers
        .iter()
        .map(|(number, word)| format!("{number} {word}"))
        .collect();
    let words = if words.is_empty() {
        "no tests".to_string()
    } else {
        words.join(", ")
    };
    let name = value(&shown(suite.name.map_or("(no suite)", |name| name)));
    Some(format!("{name}{bar}{words}{}", cell(over.time)))
}

/// Returns the section of a page that has this heading.
fn section<'a>(page: &[&'a Element], heading: &str) -> Option<&'a Element> {
    let mut sections = page.iter().filter(|element| element.name == "section");
    let has_heading = |section: &&&Element| {
        let first = section.inner().next();
        first.is_some_and(|first| first.name == "h2" && first.content() == heading)
    };
    sections.find(has_heading).copied()
}

/// The elements of a page that are only in its frame, in lines and in rows.
const FRAME: [&str; 15] = [
    "head", "meta", "title", "body", "header", "h1", "h2", "p", "main", "span", "div", "thead",
    "tbody", "th", "td",
];

/// Returns the text of the first element of a name.
fn first(page: &[&Element], name: &str) -> Option<String> {
    let found = page.iter().find(|element| element.name == name);
    found.map(|element| element.content())
}

/// Asserts that the page has the facts of the run, and no other element.
pub fn check_page(facts: &Facts, shown: &Shown, html: &str) {
    let document = html
        .strip_prefix("<!DOCTYPE html>\n")
        .expect("it is a page");
    let page = read(document);
    let all = page.all();
    let heading = format!("Test report: {}", outcome(&facts.end));
    assert_eq!(first(&all, "title"), Some(heading.clone()));
    assert_eq!(first(&all, "h1"), Some(heading));
    assert_eq!(first(&all, "p"), Some(document_summary(facts)));
    let problems = problems(facts, shown);
    check_problems(&all, &problems);
    let groups = groups(facts, shown);
    let outputs = check_failures(&all, &groups);
    let (tables, rows) = check_tables(&all, facts, shown);
    let attempts: usize = facts.tests().map(|test| shown.attempts(test).len()).sum();
    let failed = groups.len();
    let several = groups.iter().filter(|group| group.0.len() > 1);
    let named: Vec<_> = several.map(|group| group.0.len()).collect();
    let reasons = problems.iter().filter(|(_, why)| why.is_some()).count();
    let lists = usize::from(!problems.is_empty());
    check_elements(
        &all,
        &[
            ("html", 1),
            ("style", 1),
            ("ul", lists + named.len()),
            ("li", problems.len() + named.iter().sum::<usize>()),
            ("details", failed + outputs + attempts),
            ("summary", failed + outputs + attempts),
            ("h3", failed),
            ("pre", failed + outputs + reasons + attempts),
            ("code", failed + outputs + reasons + attempts),
            ("section", tables + lists + usize::from(failed > 0)),
            ("table", tables),
            ("tr", tables + rows),
        ],
    );
}

/// Asserts the tables of a page, and returns how many there are, and how many rows they have below their headings.
fn check_tables(page: &[&Element], facts: &Facts, shown: &Shown) -> (usize, usize) {
    let (mut tables, mut count) = (0, 0);
    for (heading, rows) in rows(facts, shown) {
        let rows: Vec<_> = rows.iter().map(|row| allowed(row)).collect();
        let found = section(page, heading).map(|section| {
            let all = section.all();
            let rows = all.iter().filter(|element| element.name == "tr").skip(1);
            rows.map(|row| row.content()).collect::<Vec<_>>()
        });
        tables += usize::from(!rows.is_empty());
        count += rows.len();
        assert_eq!(found, (!rows.is_empty()).then_some(rows), "{heading}");
    }
    (tables, count)
}

/// Asserts how many elements of these names a page has, and that all others are of its frame.
fn check_elements(page: &[&Element], counts: &[(&str, usize)]) {
    for (name, count) in counts {
        let named = page.iter().filter(|element| element.name == *name);
        assert_eq!(named.count(), *count, "{name}");
    }
    for element in page {
        let name = element.name.as_str();
        let is_counted = counts.iter().any(|(counted, _)| *counted == name);
        assert!(is_counted || FRAME.contains(&name), "{name}");
        check_attributes(element);
    }
}

/// Asserts that an element of a page has only attributes that load nothing and run nothing.
fn check_attributes(element: &Element) {
    let known = [
        "aria-hidden",
        "charset",
        "class",
        "colspan",
        "content",
        "http-equiv",
        "lang",
        "name",
        "open",
        "scope",
        "style",
    ];
    for (name, value) in &element.attributes {
        assert!(known.contains(&name.as_str()), "{name}={value}");
    }
}

/// Asserts the problems of a page.
fn check_problems(page: &[&Element], wanted: &[(String, Option<String>)]) {
    let found = section(page, "Problems of the run").map_or(Vec::new(), |section| {
        let all = section.all();
        let lines = all.iter().filter(|element| element.name == "li");
        lines.map(|line| line.content()).collect()
    });
    let text = |(line, why): &(String, Option<String>)| line.clone() + why.as_deref().unwrap_or("");
    assert_eq!(found, wanted.iter().map(text).collect::<Vec<_>>());
}

/// Asserts the failed tests of a page, and returns how many have an output of their own.
fn check_failures(page: &[&Element], groups: &[Group<'_>]) -> usize {
    let entries = section(page, "Failed tests").map_or(Vec::new(), |section| {
        let inner = section.inner();
        inner.filter(|element| element.name == "details").collect()
    });
    assert_eq!(entries.len(), groups.len());
    let mut outputs = 0;
    for (entry, group) in entries.iter().zip(groups) {
        let is_open = entry.attribute("open") == Some("open");
        assert_eq!(is_open, groups.len() <= 10);
        let mut wanted = vec![group.page_heading()];
        if let [_, _, ..] = group.0.as_slice() {
            let rows = group.0.iter().map(|test| {
                let own = group.own_text(test).map(|(what, lines, text)| {
                    outputs += 1;
                    format!("\n{what}, {lines} lines\n{text}\n")
                });
                format!(
                    "{}{}\n",
                    heading(test.test, test.failure),
                    own.unwrap_or_default()
                )
            });
            wanted.push(format!("\n{}", rows.collect::<String>()));
        }
        let first = &group.0[0];
        wanted.push(said(&first.shown.why));
        if let Some((lines, output)) = left_out(first.failure, first.shown) {
            wanted.push(format!("\noutput, {lines} lines\n{output}\n"));
            outputs += 1;
        }
        let found: Vec<String> = entry.inner().map(Element::content).collect();
        assert_eq!(found, wanted);
    }
    outputs
}

/// Returns the row and the heading of a group in the summary.
fn summary_headings(group: &Group<'_>) -> (String, String) {
    let first = &group.0[0];
    let status = status_of(first.failure);
    if group.0.len() > 1 {
        let (count, words) = (group.0.len(), group.words());
        return (
            format!("| {status} | {count} tests |  | {words} |\n"),
            format!("{status} {count} tests: {words}"),
        );
    }
    let time = first.test.time;
    let time = time.map_or(String::new(), |micros| seconds(micros) + "s");
    let (title, short) = (shown_title(first.test), value(&first.shown.short));
    (
        format!("| {status} | {title} | {time} | {short} |\n"),
        format!("{status} {title}{}", attempts_of(first.test)),
    )
}

/// Returns the details of a group in the summary.
fn summary_details(group: &Group<'_>) -> String {
    let first = &group.0[0];
    let mut names = String::new();
    if group.0.len() > 1 {
        let rows = group.0.iter();
        let rows = rows.map(|test| format!("\n- {}", heading(test.test, test.failure)));
        names = format!("\n{}", rows.collect::<String>());
    }
    let output = left_out(first.failure, first.shown);
    let output = output.map_or(String::new(), |(lines, output)| {
        format!("<details><summary>output, {lines} lines</summary>\n\n<pre>\n{output}</pre>\n\n</details>\n\n")
    });
    let others = group.0[1..].iter();
    let others = others.filter(|other| differ(&first.shown.why, &other.shown.why));
    let others = others.map(|other| {
        let (title, why) = (shown_title(other.test), said(&other.shown.why));
        format!("- {title}\n\n<pre>\n{why}</pre>\n\n")
    });
    format!(
        "<details><summary>{}</summary>{names}\n\n<pre>\n{}</pre>\n\n{output}{}</details>\n\n",
        summary_headings(group).1,
        said(&first.shown.why),
        others.collect::<String>()
    )
}

/// Returns the summary in Markdown, with its references resolved and without `<code>`.
fn markdown(facts: &Facts, shown: &Shown) -> String {
    let mut text = format!(
        "## Test report: {}\n\n{}\n\n",
        outcome(&facts.end),
        document_summary(facts)
    );
    let problems = problems(facts, shown);
    for (line, why) in &problems {
        let why = why
            .as_ref()
            .map_or(String::new(), |why| format!("\n\n<pre>\n{why}</pre>\n"));
        text += &format!("- {line}{why}\n");
    }
    if !problems.is_empty() {
        text += "\n";
    }
    let groups = groups(facts, shown);
    if groups.is_empty() {
        return text;
    }
    text += "| Result | Test | Time | Why |\n| --- | --- | ---: | --- |\n";
    text.extend(groups.iter().map(|group| summary_headings(group).0));
    text += "\n";
    text.extend(groups.iter().map(summary_details));
    text
}

/// Asserts that the summary has the facts of the run, and no other markup than its own. Each failed test must fit.
pub fn check_summary(facts: &Facts, shown: &Shown, summary: &str) {
    assert_eq!(plain(summary), markdown(facts, shown));
    let tags = |tag: &str| summary.matches(tag).count();
    let groups = groups(facts, shown);
    let firsts = groups.iter().map(|group| &group.0[0]);
    let outputs = firsts.filter(|first| left_out(first.failure, first.shown).is_some());
    let outputs = outputs.count();
    let others = groups.iter().map(|group| {
        let others = group.0[1..].iter();
        let why = &group.0[0].shown.why;
        others.filter(|other| differ(why, &other.shown.why)).count()
    });
    let others: usize = others.sum();
    let failed = groups.len();
    let reasons = shown.problems.iter().flatten().count();
    for (tag, count) in [
        ("<details>", failed + outputs),
        ("<summary>", failed + outputs),
        ("<pre>", failed + outputs + others + reasons),
    ] {
        let end = tag.replace('<', "</");
        assert_eq!((tags(tag), tags(&end)), (count, count), "{tag}");
    }
    assert_eq!(tags("<code>"), tags("</code>"));
    let own = ["<details>", "<summary>", "<pre>", "<code>"];
    let own: usize = own.iter().map(|tag| 2 * tags(tag)).sum();
    assert_eq!((tags("<"), tags(">")), (own, own));
    let has_mention = |line: &str| line.contains("&#64;") && !line.contains("<code>");
    assert!(!summary.lines().any(has_mention), "{summary}");
}

/// Returns a summary with its references resolved and without `<code>`.
fn plain(summary: &str) -> String {
    let text = summary.replace("<code>", "").replace("</code>", "");
    let mut parts = text.split('>');
    let first = resolved(parts.next().unwrap_or(""));
    parts.fold(first, |text, part| text + ">" + &resolved(part))
}
