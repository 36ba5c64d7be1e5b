//! Pages that name each reason to cancel a run, or each reason and counter that nextest does not have.

use deodarsieve_tests::named::{COUNTERS, reasons, word_of};

const CLI_README: &str = include_str!("../../cli/README.md");
const GLOSSARY: &str = include_str!("../../../docs/GLOSSARY.md");
const RUN_DIGEST: &str = include_str!("../../../docs/RUN-DIGEST.md");
const SEMVER: &str = include_str!("../../deodarsieve/SEMVER.md");
const UPSTREAM: &str = include_str!("../../deodarsieve/UPSTREAM.md");

/// Returns the line of a table that begins with a type or another entry.
fn row<'a>(page: &'a str, entry: &str) -> &'a str {
    let start = format!("| {entry} | ");
    let found = page.lines().find(|line| line.starts_with(&start));
    found.unwrap_or_else(|| panic!("no row of {entry}"))
}

/// Returns the number of parts that nextest's type has: the one before `word`.
fn count_in_nextest(row: &str, word: &str) -> usize {
    let (before, _) = row.split_once(word).expect("the row has the number");
    let number = before
        .rsplit(' ')
        .nth(1)
        .expect("a number is before its word");
    number.parse().expect("it is a number")
}

/// Asserts that a row of the table of nextest's items names these parts, and that nextest's type has all
/// others.
fn assert_that_own_parts_are_named(row: &str, word: &str, all: usize, own: &[String]) {
    assert_eq!(
        count_in_nextest(row, word) + own.len(),
        all,
        "{own:?} are not nextest's: {row}"
    );
    for name in own {
        assert!(row.contains(&format!("`{name}`")), "UPSTREAM.md: {name}");
    }
}

#[test]
fn each_reason_has_its_word_on_the_pages_of_run_digest() {
    for reason in reasons() {
        let word = format!("`{}`", word_of(reason));
        assert!(RUN_DIGEST.contains(&word), "RUN-DIGEST.md: {word}");
        assert!(CLI_README.contains(&word), "rust/cli/README.md: {word}");
    }
}

#[test]
fn own_reasons_are_named() {
    let names = reasons().into_iter().flatten().map(|it| format!("{it:?}"));
    let names: Vec<_> = names.collect();
    let is_own = |name: &&String| SEMVER.contains(&format!("`CancelReason::{name}`"));
    let own: Vec<_> = names.iter().filter(is_own).cloned().collect();
    let row = row(UPSTREAM, "`CancelReason`");
    assert_that_own_parts_are_named(row, "variants", names.len(), &own);
}

#[test]
fn the_glossary_has_the_least_and_the_most_severe_reason() {
    let reasons: Vec<_> = reasons().into_iter().flatten().collect();
    let (least, most) = (reasons[0], reasons[reasons.len() - 1]);
    let range = format!("from `{least:?}` (least severe) to `{most:?}` (most severe)");
    assert!(row(GLOSSARY, "cancel reason").contains(&range), "{range}");
}

#[test]
fn own_counters_are_named() {
    let row = row(UPSTREAM, "`RunStats`");
    let (_, of_this_crate) = row
        .split_once("fields | ")
        .expect("a column of differences");
    let is_own = |name: &&String| of_this_crate.contains(&format!("`{name}`"));
    let own: Vec<_> = COUNTERS.iter().filter(is_own).cloned().collect();
    // The reason to cancel is a field too.
    assert_that_own_parts_are_named(row, "fields", COUNTERS.len() + 1, &own);
}
