//! Which tests of a program are to run again after a run.

use super::failed_tests::ProgramResults;
use super::run_line::MissingTests;
use serde::{Deserialize, Serialize};
use std::collections::{BTreeSet, HashSet};

/// Which tests of a program are to run again.
#[derive(Clone, Debug, PartialEq, Eq, Serialize, Deserialize)]
#[serde(untagged)]
pub enum LeftTests {
    /// These.
    Only { only: BTreeSet<String> },

    /// All except some: others did not run, and their names are not known.
    Except {
        except: BTreeSet<String>,

        /// Those of the tests that are to run again which failed.
        #[serde(default, skip_serializing_if = "BTreeSet::is_empty")]
        failed: BTreeSet<String>,
    },
}

impl LeftTests {
    /// Returns the tests that failed, as far as it is known.
    pub(super) fn failed(&self) -> &BTreeSet<String> {
        match self {
            LeftTests::Only { only: failed } | LeftTests::Except { failed, .. } => failed,
        }
    }

    /// Returns true if no test is to run again.
    pub(super) fn is_empty(&self) -> bool {
        match self {
            LeftTests::Only { only } => only.is_empty(),
            LeftTests::Except { .. } => false,
        }
    }

    /// Returns true if a test is to run again.
    pub fn has(&self, test: &str) -> bool {
        match self {
            LeftTests::Only { only } => only.contains(test),
            LeftTests::Except { except, .. } => !except.contains(test),
        }
    }

    /// Returns true if ignored tests are to run again. `ignored` returns those of the program, if it says them. If one of
    /// them failed, they all were to run.
    pub fn has_ignored(&self, ignored: impl FnOnce() -> Option<Vec<String>>) -> bool {
        match self {
            LeftTests::Only { .. } => true,
            LeftTests::Except { failed, .. } if failed.is_empty() => false,
            LeftTests::Except { failed, .. } => {
                ignored().is_some_and(|names| names.iter().any(|name| failed.contains(name)))
            }
        }
    }

    /// Returns which of the tests that failed are not among these tests of a program, which are all that it has.
    pub fn missing(&self, program: &str, tests: &[&str]) -> MissingTests {
        let known: HashSet<_> = tests.iter().copied().collect();
        let items: HashSet<_> = tests.iter().copied().filter_map(item_of).collect();
        let is_of =
            |test: &str, items: &HashSet<&str>| item_of(test).is_some_and(|it| items.contains(it));
        let names = self.failed().iter().cloned();
        let missing = names.filter(|name| !known.contains(name.as_str()));
        let (moved, gone): (Vec<_>, _) = missing.partition(|name| is_of(name, &items));
        let items = moved.iter().filter_map(|name| item_of(name)).collect();
        let instead = tests.iter().filter(|test| is_of(test, &items));
        MissingTests {
            name: program.to_string(),
            tests: gone,
            instead: instead.map(|test| test.to_string()).collect(),
            moved,
        }
    }

    /// Returns the tests that are left after a run, given those that were left before it. `is_rerun` is true if no other
    /// tests could run. A test that failed and was ignored now is left.
    pub(super) fn after(self, results: &ProgramResults, is_rerun: bool) -> LeftTests {
        let (old, mut failed) = match self {
            LeftTests::Only { only } => (None, only),
            LeftTests::Except { except, failed } => (Some(except), failed),
        };
        failed.retain(|name| !results.done.contains(name));
        if results.is_faulty {
            let except = BTreeSet::new();
            return LeftTests::Except { except, failed };
        }
        let is_whole = !results.has_others && !is_rerun;
        if is_whole && results.is_complete {
            failed.retain(|name| results.ignored.contains(name));
        }
        failed.extend(results.failed.iter().cloned());
        let is_only = match &old {
            Some(_) => is_whole && results.is_complete,
            None => results.is_complete || is_rerun,
        };
        if is_only {
            return LeftTests::Only { only: failed };
        }
        let mut except = old.filter(|_| !is_whole).unwrap_or_default();
        except.extend(results.done.union(&results.ignored).cloned());
        except.retain(|name| !failed.contains(name));
        let has =
            |name: &&String| results.failed.contains(*name) || results.ignored.contains(*name);
        let known = except.len() + failed.iter().filter(has).count();
        // A program with a harness of its own has no number of tests, and runs as a whole.
        let is_all = results.tests.is_none_or(|tests| tests <= known as u64);
        if results.is_complete && is_all {
            LeftTests::Only { only: failed }
        } else {
            LeftTests::Except { except, failed }
        }
    }
}

/// Returns the name of a documentation test without its line, such as `src/lib.rs - adds (line 2)`: lines above it move it.
/// Returns `None` for another test.
fn item_of(test: &str) -> Option<&str> {
    let (item, line) = test.strip_suffix(')')?.rsplit_once(" (line ")?;
    line.parse::<u64>().is_ok().then_some(item)
}

#[cfg(test)]
mod tests {
    use super::*;

    #[test]
    fn documentation_tests_are_known_by_their_items() {
        for (name, item) in [
            ("a/b.rs - c (line 2)", Some("a/b.rs - c")),
            ("b.rs - (line 12)", Some("b.rs -")),
            ("a (line 2", None),
            ("a (line x)", None),
            ("a", None),
        ] {
            assert_eq!(item_of(name), item, "{name}");
        }
    }

    #[test]
    fn ignored_tests_are_to_run_again_if_one_of_them_failed() {
        let names = |text: &str| text.split_whitespace().map(String::from).collect();
        let has = |left: LeftTests| left.has_ignored(|| Some(vec!["a".into(), "i".into()]));
        let except = |text: &str, failed: &str| LeftTests::Except {
            except: names(text),
            failed: names(failed),
        };
        let only = LeftTests::Only { only: names("x") };
        assert!(has(only) && has(except("", "a b")));
        assert!(!has(except("a", "")) && !has(except("a", "b")));
    }
}
