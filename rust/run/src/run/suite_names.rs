// Made by tools/erase from crates/test_report_run/src/suite_names.rt. Do not edit.
//! The names that are known of suites before they start.

use std::collections::BTreeMap;

/// The names of suites by the paths of their binaries, which are written as in headings. A name here replaces the one
/// in the heading.
#[derive(Clone)]
pub struct SuiteNames {
    names: BTreeMap<String, String>,
}

impl SuiteNames {
    /// Returns no names.
    pub fn new() -> SuiteNames {
        SuiteNames {
            names: BTreeMap::new(),
        }
    }

    /// Adds the name of the suites of the binary with this path. It replaces the name that the path had.
    pub fn insert(&mut self, path: String, name: String) {
        self.names.insert(path, name);
    }

    /// Returns the name of the suites of the binary with this path, if it is known.
    pub(crate) fn get(&self, path: &str) -> Option<&str> {
        match self.names.get(path) {
            Some(name) => Some(name.as_str()),
            None => None,
        }
    }
}
