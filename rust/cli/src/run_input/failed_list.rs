//! The list of the tests that failed last, while a run changes it.

use crate::command::failed_tests::{FailedTests, ProgramResults};
use crate::command::run_line::MissingTests;
use crate::command::test_results::TestResults;
use std::collections::BTreeSet;
use std::io;
use std::path::PathBuf;

/// The message if only the tests that failed last were to run, and there are none.
const NOTHING_FAILED: &str = "nothing failed last, so all tests run";

/// The same, if tests of other programs failed last.
const OTHERS_FAILED: &str = "nothing of these programs failed last, so all tests run";

/// The list in a file, and what the run has to do with it.
pub(super) struct FailedList {
    file: PathBuf,
    tests: FailedTests,

    /// The names of the programs that the command runs, as far as they are known.
    programs: BTreeSet<String>,

    /// The names of the programs whose part of the list is of this run.
    taken: BTreeSet<String>,

    /// True if only tests of the list run.
    is_rerun: bool,

    /// True if there is a file, and no list can be read from it.
    pub(super) is_unreadable: bool,
}

impl FailedList {
    /// Reads the list in a file, for a command that runs these programs.
    pub(super) fn read(file: PathBuf, programs: BTreeSet<String>) -> FailedList {
        let tests = FailedTests::read(&file);
        FailedList {
            is_unreadable: tests.is_err(),
            tests: tests.unwrap_or_default(),
            file,
            programs,
            taken: BTreeSet::new(),
            is_rerun: false,
        }
    }

    /// Lets only the tests run that failed last, and returns them. If none is of a program that the command runs, all tests
    /// run. Those of other programs do not count: perhaps cargo starts them, because it does not say which documentation
    /// tests it runs. Returns a message, too. `has_filters` is true if the user's arguments select tests.
    pub(super) fn select(&mut self, has_filters: bool) -> (Option<FailedTests>, String) {
        let selected = self.tests.of(|program| self.programs.contains(program));
        self.is_rerun = !selected.is_empty();
        let words = selected.words();
        let message = match (self.is_rerun, has_filters) {
            (true, false) => format!("{words}: those that failed last"),
            (true, true) => {
                format!("{words} failed last; those of them that your arguments select run")
            }
            (false, _) if self.tests.is_empty() => NOTHING_FAILED.to_string(),
            (false, _) => OTHERS_FAILED.to_string(),
        };
        (self.is_rerun.then(|| self.tests.clone()), message)
    }

    /// Takes what became of the tests of a program. Returns the tests that it no longer has, as far as that is known.
    pub(super) fn take(&mut self, program: &str, results: &ProgramResults) -> Vec<String> {
        self.taken.insert(program.to_string());
        self.tests.take(program, results, self.is_rerun)
    }

    /// Takes the tests that a program no longer has.
    pub(super) fn take_missing(&mut self, missing: &MissingTests) {
        self.taken.insert(missing.name.clone());
        self.tests.take_missing(missing);
    }

    /// Writes the list at the end of a run. Unless `is_whole` is true, the programs that did not start are to run. Of the
    /// other programs the list stays as another run may have written it meanwhile.
    ///
    /// Fails if the list cannot be written.
    pub(super) fn finish(mut self, results: &TestResults, is_whole: bool) -> io::Result<()> {
        if !is_whole && !self.is_rerun {
            let not_started = self
                .programs
                .iter()
                .filter(|name| !results.has_started(name));
            for program in not_started {
                self.tests.add_not_started(program);
                self.taken.insert(program.clone());
            }
        }
        let mut list = FailedTests::read(&self.file).unwrap_or_default();
        list.extend(self.tests.of(|program| self.taken.contains(program)));
        list.write(self.file)
    }
}

#[cfg(test)]
mod tests {
    use super::*;

    #[test]
    fn two_runs_at_once_keep_the_failures_of_both() {
        let folder = tempfile::tempdir().expect("a folder can be made");
        let file = folder.path().join("failed");
        let lists = ["p", "q"].map(|program| {
            let programs = BTreeSet::from([program.to_string()]);
            let mut list = FailedList::read(file.clone(), programs);
            let results = ProgramResults {
                failed: BTreeSet::from(["a".to_string()]),
                is_complete: true,
                ..ProgramResults::default()
            };
            list.take(program, &results);
            list
        });
        for list in lists {
            let written = list.finish(&TestResults::default(), true);
            written.expect("it can be written");
        }
        let list = FailedTests::read(&file).expect("it can be read");
        assert!(list.left_of("p").is_some() && list.left_of("q").is_some());
    }
}
