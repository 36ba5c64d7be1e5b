//! The laws of the first page, on stored runs and on runs made from them by leaving out lines, repeating them and
//! exchanging them.

use crate::common::{SLOW, finish, take};
use deodarsieve_run::{
    Event, FailureKind, Line, Note, RunFailureStep, RunOutcome, TestOutcome, TestResult, TestRun,
    failed_count,
};

/// The stored runs.
const STORED: [&str; 5] = [
    include_str!("samples/purse.jsonl"),
    include_str!("samples/nextest.jsonl"),
    include_str!("samples/forged.jsonl"),
    include_str!("samples/does-not-compile.jsonl"),
    include_str!("samples/passing.jsonl"),
];

/// The number of runs that are made from each stored one.
const MADE: u64 = 150;

/// Numbers that look random, by a linear congruential generator.
struct Numbers(u64);

impl Numbers {
    /// Returns a number below a limit, which must not be 0.
    fn below(&mut self, limit: usize) -> usize {
        self.0 = self
            .0
            .wrapping_mul(6_364_136_223_846_793_005)
            .wrapping_add(1_442_695_040_888_963_407);
        (self.0 >> 33) as usize % limit
    }
}

/// Returns a run with some lines left out, repeated or exchanged.
fn changed(text: &str, seed: u64) -> String {
    let mut numbers = Numbers(seed);
    let mut lines: Vec<&str> = text.lines().collect();
    for _ in 0..=numbers.below(4) {
        let (at, other) = (numbers.below(lines.len()), numbers.below(lines.len()));
        match numbers.below(3) {
            0 if lines.len() > 1 => {
                lines.remove(at);
            }
            1 => lines.insert(other, lines[at]),
            _ => lines.swap(at, other),
        }
    }
    lines.join("\n")
}

/// Returns all runs.
fn runs() -> impl Iterator<Item = String> {
    STORED.into_iter().flat_map(|text| {
        let made = (0..MADE).map(move |seed| changed(text, seed));
        std::iter::once(String::from(text)).chain(made)
    })
}

/// Returns true if a note is of a test whose own line says that it failed.
fn is_told_failure(note: &&Note) -> bool {
    let Note::Test(test) = note else {
        return false;
    };
    match &test.outcome {
        TestOutcome::Failed(failure) => {
            matches!(failure.kind, FailureKind::Failed | FailureKind::TimedOut)
        }
        TestOutcome::Passed { .. } | TestOutcome::Skipped { .. } | TestOutcome::Stopped => false,
    }
}

/// Returns true if the line says that a test or a suite failed, or that it is damaged where it says so.
fn says_failed(line: &Line) -> bool {
    let of_event = match line.event() {
        Event::TestEnded { result, .. } => result == TestResult::Failed,
        Event::SuiteEnded(end) => end.failed_verdict,
        _ => false,
    };
    of_event || line.damage().is_some()
}

#[test]
fn each_line_of_a_failed_test_is_one_failed_test() {
    for text in runs() {
        let mut run = TestRun::new(SLOW);
        for line in text.lines() {
            let line = Line::read(line.as_bytes());
            let notes = run.on_line(&line).expect("the counters have room");
            let told: Vec<_> = notes.iter().filter(is_told_failure).collect();
            let Event::TestEnded {
                name,
                result: TestResult::Failed,
                details,
            } = line.event()
            else {
                assert!(told.is_empty(), "{line:?}: {told:?}");
                continue;
            };
            let [Note::Test(test)] = told[..] else {
                panic!("{line:?} is one failed test: {told:?}");
            };
            let retried = format!("{}#{}", test.name, test.attempts);
            assert!(test.name == name || retried == name, "{name}: {test:?}");
            assert_eq!(test.time, details.time);
        }
        let end = finish(&mut run, None);
        assert_eq!(
            end.notes.iter().filter(is_told_failure).count(),
            0,
            "{text}"
        );
    }
}

#[test]
fn a_run_with_a_failure_does_not_succeed() {
    for text in runs() {
        let mut run = TestRun::new(SLOW);
        take(&mut run, &text);
        let finished = finish(&mut run, None);
        if text
            .lines()
            .any(|line| says_failed(&Line::read(line.as_bytes())))
        {
            assert!(
                matches!(finished.end.outcome, RunOutcome::Failed { .. }),
                "{text}"
            );
            assert_eq!(finished.status, 1, "{text}");
        }
    }
}

#[test]
fn the_sums_are_the_counts_of_the_notes() {
    for text in runs() {
        let mut run = TestRun::new(SLOW);
        let mut notes = take(&mut run, &text);
        let finished = finish(&mut run, None);
        notes.extend(finished.notes);
        let [mut passed, mut flaky, mut failed, mut crashed, mut skipped] = [0; 5];
        for note in &notes {
            let Note::Test(test) = note else {
                continue;
            };
            match &test.outcome {
                TestOutcome::Passed { .. } => {
                    passed += 1;
                    flaky += usize::from(test.attempts > 1);
                }
                TestOutcome::Skipped { .. } => skipped += 1,
                TestOutcome::Stopped => {}
                TestOutcome::Failed(failure) => {
                    failed += 1;
                    crashed += usize::from(matches!(failure.kind, FailureKind::Crashed(_)));
                }
            }
        }
        let end = finished.end;
        assert_eq!(
            (end.stats.passed, end.stats.flaky),
            (passed, flaky),
            "{text}"
        );
        assert_eq!(
            (failed_count(&end.stats), end.crashed),
            (failed, crashed),
            "{text}"
        );
        assert_eq!(end.stats.finished_count, passed + failed, "{text}");
        assert!(end.skipped >= skipped as u128, "{text}");
        let not_run = |note: &Note| match note {
            Note::Suite(suite) => suite.not_run,
            _ => 0,
        };
        assert_eq!(
            end.not_run,
            notes.iter().map(not_run).sum::<u128>(),
            "{text}"
        );
    }
}

#[test]
fn a_run_that_does_not_succeed_has_a_reason() {
    let mut outcomes = Vec::new();
    for text in runs() {
        let mut run = TestRun::new(SLOW);
        let mut notes = take(&mut run, &text);
        let finished = finish(&mut run, None);
        notes.extend(finished.notes);
        let is_reason = |note: &Note| match note {
            Note::Test(test) => matches!(test.outcome, TestOutcome::Failed(_)),
            Note::Contradiction(_) | Note::NotRun(_) => true,
            Note::Flaky(_) | Note::Suite(_) => false,
        };
        let has_reason = notes.iter().any(is_reason);
        let is_clean = matches!(
            finished.end.outcome,
            RunOutcome::Success | RunOutcome::NoTestsRun
        );
        assert_eq!(has_reason, !is_clean, "{text}");
        outcomes.push(finished.end.outcome);
    }
    let step = RunFailureStep::Test;
    for outcome in [
        RunOutcome::Success,
        RunOutcome::Cancelled { step },
        RunOutcome::Failed { step },
    ] {
        assert!(outcomes.contains(&outcome), "no run is {outcome:?}");
    }
}
