//! What each form shows of a run, over runs that a generator writes and over stored runs that are damaged. What is known
//! of a run is what the package `deodarsieve-run` says; each form must have all of it and nothing else: each failed test
//! with its status, suite, name and reason once, each problem once, and the numbers of the run. No form has a control
//! character, a command or markup of the run.
//!
//! The expected texts have the escapes of the page on `test-report` and no others, so the type of texts for a terminal has
//! nothing to add.

mod comparisons;
mod documents;
mod facts;
mod generated;
mod generated_programs;
mod groups;
mod json;
mod junit;
mod mutated;
mod program;
mod random;
mod text;
mod written;
mod xml;

use deodarsieve::RunOutcome;
use deodarsieve_cli::report::options::Options;
use deodarsieve_run::FailureKind;
use facts::Facts;
use random::Random;
use written::{AMOUNTS, Written};

/// The time in microseconds from which on a test is slow.
const SLOW: u64 = 60_000_000;

/// Asserts that the reports of a run have its facts.
fn check(run: &[Vec<u8>], options: Options) {
    let facts = Facts::of(run);
    let (written, end) = Written::of(run, options);
    assert_eq!(end.run, facts.end);
    assert_eq!(written.others, facts.others);
    let succeeds = end.run.outcome == RunOutcome::Success;
    let is_sound = facts.failures().next().is_none() && facts.problems().next().is_none();
    let is_sound = is_sound && facts.cancelled_line().is_none();
    let ran = facts.end.stats.finished_count > 0;
    assert_eq!(succeeds, is_sound && ran);
    let shown = json::check(&facts, &written.json, options);
    // What the text shows of attempts is in JSON only if their test passed in the end.
    if !facts.has_failed_attempts_of_failed_tests() {
        text::check(&facts, &shown, &written, options);
    }
    junit::check(&facts, &shown, &written.junit);
    documents::check_page(&facts, &shown, &written.html);
    documents::check_summary(&facts, &shown, &written.markdown);
    for text in [&written.junit, &written.html, &written.markdown] {
        let is_command = |line: &str| line.trim_start().starts_with("::");
        assert!(!text.lines().any(is_command), "{text}");
        assert!(
            !facts::MARKS.iter().any(|mark| text.contains(mark)),
            "{text}"
        );
    }
}

/// Checks a run, and says which one it is if the check fails. `number` chooses how much is shown of why tests failed.
fn check_named(name: &str, run: &[Vec<u8>], number: usize) {
    let options = AMOUNTS[number % AMOUNTS.len()];
    let result = std::panic::catch_unwind(|| check(run, options));
    if result.is_err() {
        for file in run {
            eprintln!("{}", String::from_utf8_lossy(file));
        }
        panic!("the run {name} is above; {options:?}");
    }
}

#[test]
fn generated_runs() {
    for seed in 0..400 {
        check_named(
            &format!("of the seed {seed}"),
            &generated::run_of(seed),
            seed as usize,
        );
    }
}

#[test]
fn generated_runs_of_programs() {
    for seed in 0..400 {
        check_named(
            &format!("of programs of the seed {seed}"),
            &generated_programs::run_of(seed),
            seed as usize,
        );
    }
}

#[test]
fn generated_runs_of_programs_have_each_kind_of_problem() {
    let (mut lines, mut silent) = (String::new(), 0);
    for seed in 0..400 {
        let facts = Facts::of(&generated_programs::run_of(seed));
        let problems = facts.problems().map(|(_, line)| line);
        let stopped = facts.suites().into_iter();
        let stopped = stopped.filter_map(|suite| facts::stopped_lines(&suite.notes));
        for line in problems.chain(stopped).chain(facts.cancelled_line()) {
            lines.push_str(&format!("{line}\n"));
        }
        silent += facts.without_report.len();
    }
    for part in [
        " ended with status 3\n",
        " ended with status -7\n",
        " ended by signal 11\n",
        " ended early, by signal 99\n",
        " ended early, with status 0\n",
        " ended and ran no tests\n",
        " did not end\n",
        "a program ended that had not started: signal ",
        "a program ended that had not started: status ",
        "the run was cut off: no line says how its command ended\n",
        "the run was cancelled (Interrupt)\n",
        "the run was cancelled (Signal)\n",
        " was stopped\n",
        " ran when ",
        "cargo: error: no bank\n",
        "the command ended with status 101, and no line says why\n",
    ] {
        assert!(lines.contains(part), "no run has {part:?}");
    }
    assert!(silent > 0, "no program has its own harness");
}

/// Returns how many failed tests of a run have their panics in what was printed.
fn uncaptured_panics(run: &[Vec<u8>]) -> usize {
    let facts = Facts::of(run);
    let failures = facts.failures();
    let uncaptured = failures.filter(|(test, failure)| {
        let has_line = matches!(failure.kind, FailureKind::Failed | FailureKind::TimedOut);
        has_line && failure.stdout.is_none() && !facts.output_of(test, failure).is_empty()
    });
    uncaptured.count()
}

#[test]
fn generated_runs_have_panics_of_tests_whose_output_was_not_captured() {
    let panics = |run_of: fn(u64) -> Vec<Vec<u8>>| -> usize {
        (0..400).map(|seed| uncaptured_panics(&run_of(seed))).sum()
    };
    assert!(panics(generated::run_of) > 0);
    assert!(panics(generated_programs::run_of) > 0);
}

#[test]
fn generated_runs_have_tests_that_passed_after_attempts_that_failed() {
    let count = |seed| -> usize {
        let facts = Facts::of(&generated::run_of(seed));
        let tests = facts.tests();
        tests.map(|test| facts::attempts_of(test).0.len()).sum()
    };
    let count = (0..400).map(count).sum::<usize>();
    assert!(count > 50, "{count}");
}

#[test]
fn stored_runs() {
    for (name, run) in mutated::stored_runs() {
        check_named(&name, &[run], 0);
    }
}

#[test]
fn mutated_runs() {
    let runs = mutated::stored_runs();
    let mut random = Random::new(1);
    for (name, run) in &runs {
        for number in 0..AMOUNTS.len() {
            let (_, other) = &runs[random.below(runs.len())];
            let mutated = mutated::mutated(run, other, &mut random);
            check_named(&format!("{name}, mutated {number}"), &[mutated], number);
        }
    }
}

#[test]
fn runs_that_are_compared() {
    let folder = crate::common::Folder::new("properties-compared");
    let path = folder.0.join("earlier");
    let runs = mutated::stored_runs();
    let mut random = Random::new(2);
    let mut count = 0;
    for (name, run) in &runs {
        let (_, other) = &runs[random.below(runs.len())];
        let mutated = mutated::mutated(run, other, &mut random);
        let result = std::panic::catch_unwind(|| comparisons::check(run, &[mutated], &path));
        count += result.unwrap_or_else(|_| panic!("the run is {name}, mutated"));
    }
    assert!(count > runs.len(), "{count}");
}
