//! The tests that failed, crashed, were stopped or did not run when their programs last ran: the file of `--failed`. It has
//! the other programs, too, with the number of their tests.
//!
//! The file is one object. `tests` is the number of tests that the program has, or `null`. Either the tests in `only` are to
//! run again, or all except those in `except`. `failed` has those of them that failed:
//!
//! ```text
//! {"programs":{"ledger":{"tests":48,"only":["adds"]},"ledger::it":{"tests":3,"except":["a"],"failed":["b"]}}}
//! ```

use super::left_tests::LeftTests;
use super::run_line::MissingTests;
use crate::replaced_file::ReplacedFile;
use serde::{Deserialize, Serialize};
use std::collections::{BTreeMap, BTreeSet};
use std::fs;
use std::io::{self, ErrorKind};
use std::path::{Path, PathBuf};

/// The name of the file in the folder of this program in cargo's target folder.
const NAME: &str = "failed";

/// The name of the file of benchmarks. Their programs may have the names of others that run tests.
const NAME_OF_BENCHMARKS: &str = "failed-benchmarks";

/// The tests of programs that are to run again, by the names of the programs.
#[derive(Clone, Debug, Default, PartialEq, Eq, Serialize, Deserialize)]
pub struct FailedTests {
    programs: BTreeMap<String, FailedProgram>,
}

/// A program, and which of its tests are to run again: perhaps none.
#[derive(Clone, Debug, PartialEq, Eq, Serialize, Deserialize)]
struct FailedProgram {
    /// The number of its tests, if that is known.
    tests: Option<u64>,

    #[serde(flatten)]
    left: LeftTests,
}

/// What became of the tests of a program in a run.
#[derive(Debug, Default, PartialEq, Eq)]
pub struct ProgramResults {
    /// The tests that failed or that nobody knows the end of.
    pub failed: BTreeSet<String>,

    /// The tests that passed.
    pub done: BTreeSet<String>,

    /// The tests that did not run because they are ignored.
    pub ignored: BTreeSet<String>,

    /// True if the tests that were to run have run.
    pub is_complete: bool,

    /// True if the program failed, and none of its tests.
    pub is_faulty: bool,

    /// The number of tests that the program has, if a line says it.
    pub tests: Option<u64>,

    /// True if some of these were not selected.
    pub has_others: bool,
}

impl FailedTests {
    /// Returns the path of the list in a folder. `measures` is true if it is that of benchmarks.
    pub fn path_in(folder: &Path, measures: bool) -> PathBuf {
        folder.join(if measures { NAME_OF_BENCHMARKS } else { NAME })
    }

    /// Reads the list in a file. It is empty if there is none.
    ///
    /// Fails if the file is there and cannot be read as a list.
    pub fn read(file: &Path) -> io::Result<FailedTests> {
        match fs::read(file) {
            Ok(bytes) => Ok(serde_json::from_slice(&bytes)?),
            Err(error) if error.kind() == ErrorKind::NotFound => Ok(FailedTests::default()),
            Err(error) => Err(error),
        }
    }

    /// Writes the list to a file. The old one is replaced.
    ///
    /// Fails if that cannot be done.
    pub fn write(&self, file: PathBuf) -> io::Result<()> {
        let text = serde_json::to_string(self)?;
        ReplacedFile::new(file, None).replace(&text)
    }

    /// Returns the part of the list about some programs.
    pub fn of(&self, is_one: impl Fn(&str) -> bool) -> FailedTests {
        let programs = self.programs.iter().filter(|(name, _)| is_one(name));
        FailedTests {
            programs: programs
                .map(|(name, it)| (name.clone(), it.clone()))
                .collect(),
        }
    }

    /// Returns true if nothing is to run again.
    pub fn is_empty(&self) -> bool {
        self.programs
            .values()
            .all(|program| program.left.is_empty())
    }

    /// Returns which tests of a program are to run again, if some are.
    pub fn left_of(&self, program: &str) -> Option<&LeftTests> {
        let left = &self.programs.get(program)?.left;
        (!left.is_empty()).then_some(left)
    }

    /// Takes the programs of another list. They replace those of the same names.
    pub fn extend(&mut self, other: FailedTests) {
        self.programs.extend(other.programs);
    }

    /// Takes what became of the tests of a program. `is_rerun` is true if only tests of this list could run. Returns the
    /// tests of the list that the program no longer has, as far as the results show it.
    pub fn take(&mut self, program: &str, results: &ProgramResults, is_rerun: bool) -> Vec<String> {
        let old = self.programs.remove(program);
        let known = old.as_ref().and_then(|old| old.tests);
        let tests = results
            .tests
            .max(if results.is_complete { None } else { known });
        let none = LeftTests::Only {
            only: BTreeSet::new(),
        };
        let old = old.map_or(none, |old| old.left);
        let is_known = results.is_complete && !results.has_others && !is_rerun;
        let gone = if is_known && !results.is_faulty {
            let ran = [&results.done, &results.failed, &results.ignored];
            let ran: Vec<_> = ran.into_iter().flatten().map(String::as_str).collect();
            old.missing(program, &ran).tests
        } else {
            Vec::new()
        };
        let left = old.after(results, is_rerun);
        let found = FailedProgram { tests, left };
        self.programs.insert(program.to_string(), found);
        gone
    }

    /// Notes that a program that was to run has not started.
    pub fn add_not_started(&mut self, program: &str) {
        let old = self.programs.get(program);
        let found = FailedProgram {
            tests: old.and_then(|old| old.tests),
            left: LeftTests::Except {
                except: BTreeSet::new(),
                failed: old.map_or_else(BTreeSet::new, |old| old.left.failed().clone()),
            },
        };
        self.programs.insert(program.to_string(), found);
    }

    /// Removes the tests that a program no longer has, and adds those that run in place of some of them.
    pub fn take_missing(&mut self, missing: &MissingTests) {
        let Some(found) = self.programs.get_mut(&missing.name) else {
            return;
        };
        let (LeftTests::Only { only: failed } | LeftTests::Except { failed, .. }) = &mut found.left;
        for test in missing.tests.iter().chain(&missing.moved) {
            failed.remove(test);
        }
        failed.extend(missing.instead.iter().cloned());
    }

    /// Returns the numbers of the tests that are to run again and of all tests: `15 of 63 tests`. A program whose number of
    /// tests is not known is counted apart.
    pub fn words(&self) -> String {
        let (mut left, mut all, mut programs) = (0, 0, 0);
        for FailedProgram { tests, left: which } in self.programs.values() {
            match (which, *tests) {
                (LeftTests::Only { only: names }, tests) => {
                    left += names.len() as u64;
                    all += tests.unwrap_or(0).max(names.len() as u64);
                }
                (LeftTests::Except { except, .. }, Some(tests)) => {
                    left += tests.saturating_sub(except.len() as u64);
                    all += tests;
                }
                (LeftTests::Except { .. }, None) => programs += 1,
            }
        }
        let tests = format!("{left} of {}", counted(all, "test"));
        let programs = (programs > 0).then(|| counted(programs, "program"));
        match programs {
            None => tests,
            Some(programs) if left == 0 => programs,
            Some(programs) => format!("{tests}, and {programs}"),
        }
    }
}

/// Returns a number and what is counted.
pub(super) fn counted(number: u64, what: &str) -> String {
    let end = if number == 1 { "" } else { "s" };
    format!("{number} {what}{end}")
}

#[cfg(test)]
mod tests {
    use super::*;

    /// Returns the names in a text.
    fn names(text: &str) -> BTreeSet<String> {
        text.split_whitespace().map(String::from).collect()
    }

    /// Returns the results of a program that has run all that was selected of its four tests.
    fn complete(failed: &str, done: &str) -> ProgramResults {
        ProgramResults {
            failed: names(failed),
            done: names(done),
            is_complete: true,
            tests: Some(4),
            ..ProgramResults::default()
        }
    }

    /// Returns the same of one that ended before all had run.
    fn cut(failed: &str, done: &str) -> ProgramResults {
        ProgramResults {
            is_complete: false,
            ..complete(failed, done)
        }
    }

    /// Returns the same if some of the tests were not selected.
    fn selected(results: ProgramResults) -> ProgramResults {
        ProgramResults {
            has_others: true,
            ..results
        }
    }

    /// Returns a list that has run a program several times.
    fn list(runs: &[(ProgramResults, bool)]) -> FailedTests {
        let mut list = FailedTests::default();
        for (results, is_rerun) in runs {
            list.take("p", results, *is_rerun);
        }
        list
    }

    /// Returns the tests that are left after several runs.
    fn left(runs: &[(ProgramResults, bool)]) -> Option<LeftTests> {
        list(runs).left_of("p").cloned()
    }

    fn only(text: &str) -> Option<LeftTests> {
        Some(LeftTests::Only { only: names(text) })
    }

    fn except(text: &str, failed: &str) -> Option<LeftTests> {
        Some(LeftTests::Except {
            except: names(text),
            failed: names(failed),
        })
    }

    #[test]
    fn a_whole_run_says_which_tests_are_left() {
        assert_eq!(left(&[(complete("a", "b c d"), false)]), only("a"));
        assert_eq!(left(&[(complete("", "a b c d"), false)]), None);
        assert_eq!(left(&[(cut("a", "b"), false)]), except("b", "a"));
        let all = || (complete("a b", "c d"), false);
        assert_eq!(left(&[all(), (complete("c", "a b d"), false)]), only("c"));
        assert_eq!(
            left(&[(cut("", "a"), false), (complete("", "a b c d"), false)]),
            None
        );
    }

    #[test]
    fn tests_that_were_not_selected_stay() {
        let some = |failed, done| (selected(complete(failed, done)), false);
        let first = || (complete("a b", "c d"), false);
        assert_eq!(left(&[first(), some("", "a")]), only("b"));
        assert_eq!(left(&[first(), some("c", "a")]), only("b c"));
        assert_eq!(left(&[some("a", "")]), only("a"));
        let cut_first = || (cut("a", "b"), false);
        assert_eq!(left(&[cut_first(), some("", "a")]), except("a b", ""));
        assert_eq!(left(&[cut_first(), some("b", "a")]), except("a", "b"));
        assert_eq!(
            left(&[first(), (selected(cut("a", "c")), false)]),
            except("c", "a b")
        );
    }

    #[test]
    fn a_rerun_runs_only_what_is_left() {
        let again = |failed, done| (selected(complete(failed, done)), true);
        let cut_again = |failed, done| (selected(cut(failed, done)), true);
        let first = || (complete("a b", "c d"), false);
        assert_eq!(left(&[first(), again("", "a b")]), None);
        assert_eq!(left(&[first(), again("b", "a")]), only("b"));
        assert_eq!(left(&[first(), cut_again("", "a")]), only("b"));
        let cut_first = || (cut("a", "b"), false);
        assert_eq!(left(&[cut_first(), again("", "a c d")]), None);
        assert_eq!(left(&[cut_first(), again("c", "a d")]), only("c"));
        assert_eq!(left(&[cut_first(), again("", "a")]), except("a b", ""));
        assert_eq!(
            left(&[cut_first(), cut_again("a", "c")]),
            except("b c", "a")
        );
    }

    #[test]
    fn a_program_that_failed_without_a_failed_test_is_left_whole() {
        let faulty = ProgramResults {
            is_faulty: true,
            ..complete("", "a b c d")
        };
        assert_eq!(left(&[(faulty, false)]), except("", ""));
    }

    #[test]
    fn a_test_that_failed_and_is_ignored_now_stays() {
        let ignored = |results: ProgramResults, is_rerun| {
            let ignored = names("a b");
            (ProgramResults { ignored, ..results }, is_rerun)
        };
        let first = || (selected(complete("a", "")), false);
        let whole = ignored(complete("", "c d"), false);
        assert_eq!(left(&[first(), whole]), only("a"));
        let whole = ignored(cut("", "c"), false);
        assert_eq!(left(&[first(), whole]), except("b c", "a"));
        let cut_first = || (cut("a", ""), false);
        let again = ignored(complete("", "c d"), true);
        assert_eq!(left(&[cut_first(), again]), only("a"));
        let whole = ignored(complete("", "c d"), false);
        assert_eq!(left(&[cut_first(), whole]), only("a"));
        let faulty = ProgramResults {
            is_faulty: true,
            ..complete("", "c d")
        };
        assert_eq!(left(&[first(), ignored(faulty, false)]), except("", "a"));
        let mut list = list(&[first()]);
        list.add_not_started("p");
        assert_eq!(list.left_of("p"), except("", "a").as_ref());
    }

    #[test]
    fn a_documentation_test_whose_line_has_moved_is_replaced() {
        let text =
            |names: &[&str]| -> Vec<_> { names.iter().map(|name| name.to_string()).collect() };
        let old = ["f - a (line 2)", "f - b (line 5)", "f - c (line 9)", "old"];
        let new = [
            "f - a (line 3)",
            "f - a (line 6)",
            "f - c (line 9)",
            "f - d (line 5)",
        ];
        let left = LeftTests::Only {
            only: old.map(String::from).into(),
        };
        let missing = MissingTests {
            name: "p".into(),
            tests: text(&[old[1], old[3]]),
            moved: text(&[old[0]]),
            instead: text(&new[..2]),
        };
        assert_eq!(left.missing("p", &new), missing);
        let results = ProgramResults {
            failed: old.map(String::from).into(),
            is_complete: true,
            ..ProgramResults::default()
        };
        let mut list = list(&[(results, false)]);
        let none = MissingTests {
            name: "q".into(),
            ..MissingTests::default()
        };
        list.take_missing(&none);
        list.take_missing(&missing);
        let wanted = LeftTests::Only {
            only: [new[0], new[1], new[2]].map(String::from).into(),
        };
        assert_eq!(list.left_of("p"), Some(&wanted));
        // A test that has only moved is not gone after a whole run.
        let results = ProgramResults {
            done: text(&["f - a (line 4)"]).into_iter().collect(),
            is_complete: true,
            ..ProgramResults::default()
        };
        assert_eq!(list.take("p", &results, false), ["f - c (line 9)"]);
    }

    #[test]
    fn a_test_that_is_gone_leaves_the_list() {
        let mut list = list(&[(complete("a b", "c d"), false)]);
        assert_eq!(list.take("p", &complete("b", "c d e"), false), ["a"]);
        assert_eq!(list.left_of("p"), only("b").as_ref());
        let missing = MissingTests {
            name: "p".into(),
            tests: vec!["b".into()],
            ..MissingTests::default()
        };
        list.take_missing(&missing);
        assert!(list.is_empty());
    }

    #[test]
    fn the_words_count_tests_and_programs() {
        let words = |runs: &[(ProgramResults, bool)]| list(runs).words();
        assert_eq!(words(&[(complete("a", "b c d"), false)]), "1 of 4 tests");
        assert_eq!(words(&[(cut("a", "b"), false)]), "3 of 4 tests");
        let mut list = list(&[(complete("a b", "c d"), false)]);
        list.add_not_started("q");
        list.add_not_started("p");
        assert_eq!(list.words(), "4 of 4 tests, and 1 program");
        assert_eq!(list.of(|name| name == "q").words(), "1 program");
        let single = ProgramResults {
            tests: Some(1),
            ..complete("a", "")
        };
        list.take("q", &single, false);
        assert_eq!(list.of(|name| name == "q").words(), "1 of 1 test");
        list.take("p", &complete("", "a b c d"), false);
        list.add_not_started("r");
        assert_eq!(list.of(|name| name != "q").words(), "1 program");
    }

    #[test]
    fn the_file_is_one_object() {
        let folder = tempfile::tempdir().expect("a folder can be made");
        let file = FailedTests::path_in(&folder.path().join("test-report"), false);
        let read = || FailedTests::read(&file);
        assert!(read().expect("there is none").is_empty());
        let mut list = list(&[(complete("a \"b\"", "c d"), false)]);
        list.add_not_started("q (doc tests)");
        list.take("r", &cut("a", "b"), false);
        list.write(file.clone()).expect("it can be written");
        let text = fs::read_to_string(&file).expect("it is written");
        assert_eq!(
            text,
            r#"{"programs":{"p":{"tests":4,"only":["\"b\"","a"]},"q (doc tests)":{"tests":null,"except":[]},"r":{"tests":4,"except":["b"],"failed":["a"]}}}"#
        );
        assert_eq!(read().expect("it can be read"), list);
        fs::write(&file, "{").expect("the folder is there");
        assert!(read().is_err());
    }
}
