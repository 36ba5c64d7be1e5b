//! Learns from the lines of a run what became of the tests of each program.

use super::failed_tests::ProgramResults;
use crate::attempts::without_attempts;
use deodarsieve_run::{Event, Line, ProgramEnd, ProgramLine, TestResult};
use serde::Deserialize;
use std::collections::BTreeSet;
use std::mem;

/// What became of the tests of the programs of a run.
#[derive(Debug, Default)]
pub struct TestResults {
    /// True if the programs measure benchmarks. Then they report all tests as ignored, which says nothing of them.
    measures: bool,

    /// The program that runs.
    open: Option<OpenProgram>,

    /// The programs that ended and were not taken.
    ended: Vec<(String, ProgramResults)>,

    /// The names of the programs that started.
    started: BTreeSet<String>,
}

/// A program that runs.
#[derive(Debug, Default)]
struct OpenProgram {
    name: String,

    /// True if its harness was asked for something else than to run tests.
    lists: bool,
    measures: bool,
    has_own_harness: bool,

    /// How many of its suites have started, and how many have ended.
    suites: (usize, usize),

    /// The tests that started and did not end.
    running: BTreeSet<String>,
    failed: BTreeSet<String>,
    done: BTreeSet<String>,
    ignored: BTreeSet<String>,

    /// The number of tests in the first lines of the suites.
    tests: u64,

    /// The number of tests that were not selected, by the last lines of the suites.
    others: u64,
}

/// The member of a suite's last line that says how many tests were not selected.
#[derive(Deserialize)]
struct FilteredOut {
    filtered_out: Option<u64>,
}

impl TestResults {
    /// Returns the results of a run without a line. `measures` is true if its programs measure benchmarks.
    pub fn new(measures: bool) -> TestResults {
        TestResults {
            measures,
            ..TestResults::default()
        }
    }

    /// Takes a line of the run.
    pub fn on_line(&mut self, line: &Line, bytes: &[u8]) {
        match line.program() {
            Some(ProgramLine::ProgramStarted(start)) => {
                self.end_program(None);
                self.started.insert(start.name.clone());
                self.open = Some(OpenProgram {
                    name: start.name.clone(),
                    lists: start.lists,
                    measures: self.measures,
                    has_own_harness: start.own_harness,
                    ..OpenProgram::default()
                });
            }
            Some(ProgramLine::ProgramEnded { end, .. }) => self.end_program(*end),
            Some(ProgramLine::CommandEnded { .. } | ProgramLine::CommandStarted) => {
                self.end_program(None);
            }
            Some(ProgramLine::CommandCancelled(_)) => {}
            None => {
                if let Some(open) = &mut self.open {
                    open.on_event(line.event(), bytes);
                }
            }
        }
    }

    /// Returns what became of the tests of the programs that ended since the last call.
    pub fn take_ended(&mut self) -> Vec<(String, ProgramResults)> {
        mem::take(&mut self.ended)
    }

    /// Returns true if a program of this name started.
    pub fn has_started(&self, program: &str) -> bool {
        self.started.contains(program)
    }

    /// Ends the program that runs, if one does.
    fn end_program(&mut self, end: Option<ProgramEnd>) {
        if let Some(open) = self.open.take().filter(|open| !open.lists) {
            let name = open.name.clone();
            self.ended.push((name, open.results(end)));
        }
    }
}

impl OpenProgram {
    /// Takes an event of the harness.
    fn on_event(&mut self, event: Event, bytes: &[u8]) {
        match event {
            Event::SuiteStarted { test_count, .. } => {
                self.suites.0 += 1;
                self.tests += test_count.unwrap_or(0);
            }
            Event::SuiteEnded(_) => {
                self.suites.1 += 1;
                self.others += filtered_out(bytes).unwrap_or(0);
                // A test without an end failed.
                self.failed.append(&mut self.running);
            }
            Event::TestStarted { name } => {
                self.running.insert(name.to_string());
            }
            Event::TestEnded { name, result, .. } => {
                let name = self.test_of(name);
                match result {
                    TestResult::Failed => self.failed.insert(name),
                    TestResult::Ignored if self.measures => false,
                    TestResult::Ignored => self.ignored.insert(name),
                    TestResult::Ok => self.done.insert(name),
                };
            }
            Event::TestSlow { .. }
            | Event::Other
            | Event::Heading { .. }
            | Event::CargoFailed { .. }
            | Event::Print { .. }
            | Event::Damaged { .. } => {}
        }
    }

    /// Returns the test of which a line says the end: the name in it may end with `#` and a number of attempts.
    fn test_of(&mut self, name: &str) -> String {
        if self.running.remove(name) {
            return name.to_string();
        }
        let test = without_attempts(name);
        self.running.remove(test);
        test.to_string()
    }

    /// Returns what became of the tests, at the end of the program.
    fn results(mut self, end: Option<ProgramEnd>) -> ProgramResults {
        self.failed.append(&mut self.running);
        self.done.retain(|name| !self.failed.contains(name));
        let has_passed = end == Some(ProgramEnd::Status(0));
        let has_suites = self.suites.0 > 0 && self.suites.0 == self.suites.1;
        let is_complete = has_suites || self.has_own_harness && has_passed;
        ProgramResults {
            is_faulty: self.failed.is_empty() && is_complete && !has_passed,
            is_complete,
            tests: (self.suites.0 > 0).then_some(self.tests + self.others),
            has_others: self.others > 0 || self.measures,
            failed: self.failed,
            done: self.done,
            ignored: self.ignored,
        }
    }
}

/// Returns how many tests were not selected, by the last line of a suite.
fn filtered_out(line: &[u8]) -> Option<u64> {
    let FilteredOut { filtered_out } = serde_json::from_slice(line).ok()?;
    filtered_out
}

#[cfg(test)]
mod tests {
    use super::*;

    const STARTED: &str = "{\"type\":\"program\",\"event\":\"started\",\"name\":\"p\"}\n\
                           {\"type\":\"suite\",\"event\":\"started\",\"test_count\":3}\n";
    const LAST: &str =
        "{\"type\":\"suite\",\"event\":\"failed\",\"passed\":1,\"failed\":1,\"filtered_out\":2}\n";

    /// Returns the lines of a test that starts and, if there is an event, ends.
    fn test(name: &str, end: &str, event: &str) -> String {
        let mut lines =
            format!("{{\"type\":\"test\",\"event\":\"started\",\"name\":\"{name}\"}}\n");
        if !event.is_empty() {
            lines += &format!("{{\"type\":\"test\",\"event\":\"{event}\",\"name\":\"{end}\"}}\n");
        }
        lines
    }

    /// Returns the results of the programs in the lines of a run.
    fn results(lines: &[&str]) -> Vec<(String, ProgramResults)> {
        let mut results = TestResults::default();
        for line in lines.concat().lines() {
            results.on_line(&Line::read(line.as_bytes()), line.as_bytes());
        }
        results.take_ended()
    }

    /// Returns the results of the only program.
    fn result(lines: &[&str]) -> ProgramResults {
        let mut found = results(lines);
        let (name, result) = found.pop().expect("a program ended");
        assert_eq!((name.as_str(), found.len()), ("p", 0));
        result
    }

    /// Returns the line of the end of a program.
    fn ended(how: &str) -> String {
        format!("{{\"type\":\"program\",\"event\":\"ended\",{how},\"stderr\":\"\"}}\n")
    }

    fn names(text: &str) -> BTreeSet<String> {
        text.split_whitespace().map(String::from).collect()
    }

    #[test]
    fn a_program_that_ends_has_passed_and_failed_tests() {
        let tests = [
            test("a", "a", "failed"),
            test("b", "b", "ok"),
            test("c", "c", "ignored"),
            test("d", "d#3", "failed"),
            test("e", "e#2", "ok"),
            test("f#2", "f#2", "failed"),
            test("g", "g#1001", "failed"),
        ];
        let found = result(&[STARTED, &tests.concat(), LAST, &ended("\"status\":101")]);
        let wanted = ProgramResults {
            failed: names("a d f#2 g g#1001"),
            done: names("b e"),
            ignored: names("c"),
            is_complete: true,
            is_faulty: false,
            tests: Some(5),
            has_others: true,
        };
        assert_eq!(found, wanted);
    }

    #[test]
    fn a_program_that_crashes_has_not_run_all_tests() {
        let tests = [test("a", "a", "ok"), test("b", "", "")].concat();
        for end in [
            &ended("\"signal\":6"),
            STARTED,
            "{\"type\":\"command\",\"event\":\"ended\"}\n",
        ] {
            let found = &results(&[STARTED, &tests, end])[0].1;
            assert_eq!((&found.failed, &found.done), (&names("b"), &names("a")));
            assert!(!found.is_complete && !found.is_faulty, "{end}");
            assert_eq!(found.tests, Some(3));
        }
        // A test without an end failed, if its suite has one.
        let found = result(&[STARTED, &tests, LAST, &ended("\"status\":101")]);
        assert!(found.is_complete);
        assert_eq!(found.failed, names("b"));
    }

    #[test]
    fn a_program_may_fail_without_a_failed_test() {
        let test = test("a", "a", "ok");
        let found = result(&[STARTED, &test, LAST, &ended("\"status\":3")]);
        assert!(found.is_faulty && found.is_complete);
        let found = result(&[STARTED, &test, LAST, &ended("\"status\":0")]);
        assert!(!found.is_faulty);
        let own = "{\"type\":\"program\",\"event\":\"started\",\"name\":\"p\",\"harness\":false}\n";
        assert!(result(&[own, &ended("\"status\":0")]).is_complete);
        assert!(!result(&[own, &ended("\"status\":1")]).is_complete);
        let lists = "{\"type\":\"program\",\"event\":\"started\",\"name\":\"p\",\"list\":true}\n";
        assert_eq!(results(&[lists, &ended("\"status\":0")]), []);
    }

    #[test]
    fn a_test_that_a_benchmark_ignores_is_not_known() {
        let mut results = TestResults::new(true);
        let end = ended("\"status\":0");
        for line in [STARTED, &test("a", "a", "ignored"), LAST, &end]
            .concat()
            .lines()
        {
            results.on_line(&Line::read(line.as_bytes()), line.as_bytes());
        }
        let found = &results.take_ended()[0].1;
        assert!(found.ignored.is_empty() && found.has_others);
    }

    #[test]
    fn the_programs_that_started_are_known() {
        let mut results = TestResults::default();
        let line = STARTED.lines().next().expect("it has one").as_bytes();
        results.on_line(&Line::read(line), line);
        assert!(results.has_started("p") && !results.has_started("q"));
    }
}
