// Made by tools/erase from crates/test_report_run/src/headings.rt. Do not edit.
//! The names that headings give suites.

use crate::run::texts::owned;
use std::collections::BTreeMap;

/// The headings of a file: the paths that each name had.
#[derive(Clone, Debug)]
pub(crate) struct Headings {
    names: BTreeMap<String, Paths>,
}

/// The paths that one name had, each with its number. Headings of documentation tests have no path.
#[derive(Clone, Debug)]
struct Paths {
    numbers: BTreeMap<Option<String>, usize>,
}

impl Headings {
    /// Returns no headings.
    pub(crate) fn new() -> Headings {
        Headings {
            names: BTreeMap::new(),
        }
    }

    /// Takes a heading, and returns the name of the suites that follow it. If headings with this name had
    /// other paths before they had this one, the name is followed by the number of the path, as in ` (2)`.
    pub(crate) fn take_heading(&mut self, name: &str, path: Option<&str>) -> String {
        let number = self.number(name, path);
        if number == 1 {
            return String::from(name);
        }
        format!("{name} ({number})")
    }

    /// Adds a path to those of a name, and returns its number.
    fn number(&mut self, name: &str, path: Option<&str>) -> usize {
        let name = String::from(name);
        let paths = self.names.entry(name).or_insert(Paths::new());
        paths.number(path)
    }
}

impl Paths {
    /// Returns no paths.
    fn new() -> Paths {
        Paths {
            numbers: BTreeMap::new(),
        }
    }

    /// Adds a path if it is new, and returns its number. The first path has the number 1.
    fn number(&mut self, path: Option<&str>) -> usize {
        let path = owned(path);
        let next = self.numbers.len() + 1;
        let number = self.numbers.get(&path).copied().unwrap_or(next);
        self.numbers.insert(path, number);
        number
    }
}
