// Made by tools/erase from crates/test_report_run/src/open_suites/keys.rt. Do not edit.
//! The numbers of the open suites by their keys.

use std::collections::BTreeMap;

/// The numbers of the open suites by their keys. No two of them have the same key, and at most one has none.
#[derive(Clone, Debug)]
pub(crate) struct KeyNumbers {
    keys: BTreeMap<String, usize>,

    /// The number of the suite without a key.
    keyless: Option<usize>,
}

impl KeyNumbers {
    /// Returns no numbers.
    pub(crate) fn new() -> KeyNumbers {
        KeyNumbers {
            keys: BTreeMap::new(),
            keyless: None,
        }
    }

    /// Returns the number of the suite with a key, or without a key.
    pub(crate) fn number_of_key(&self, key: Option<&str>) -> Option<usize> {
        match key {
            Some(key) => self.keys.get(key).copied(),
            None => self.keyless,
        }
    }

    /// Sets the number of the suite with a key, or without a key.
    pub(crate) fn insert(&mut self, key: &Option<String>, number: usize) {
        match key {
            Some(key) => {
                self.keys.insert(key.clone(), number);
            }
            None => self.keyless = Some(number),
        }
    }

    /// Removes the number of the suite with a key, or without a key.
    pub(crate) fn remove(&mut self, key: &Option<String>) {
        match key {
            Some(key) => {
                self.keys.remove(key.as_str());
            }
            None => self.keyless = None,
        }
    }
}
