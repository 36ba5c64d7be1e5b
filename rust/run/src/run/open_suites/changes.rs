// Made by tools/erase from crates/test_report_run/src/open_suites/changes.rt. Do not edit.
//! What opens, finds and removes open suites.

use crate::run::error::{RunError, one_more};
use crate::run::open_suites::OpenSuites;
use crate::run::open_suites::keys::KeyNumbers;
use crate::run::others::Others;
use crate::run::suite::Suite;
use std::rc::Rc;

impl OpenSuites {
    /// Returns no suites.
    pub(crate) fn new() -> OpenSuites {
        OpenSuites {
            list: Vec::new(),
            numbers: Vec::new(),
            keys: KeyNumbers::new(),
            started: 0,
        }
    }

    /// Returns true if a suite has started.
    pub(crate) fn has_started(&self) -> bool {
        self.started > 0
    }

    /// Opens a suite. `others` are the other lines of the file before it. After an error suites may be missing. Fails
    /// if memory runs out, or the number of suites that started does not fit.
    pub(crate) fn open(
        &mut self,
        key: Option<String>,
        heading: Option<Rc<String>>,
        test_count: Option<u128>,
        others: &Others,
    ) -> Result<(), RunError> {
        let number = one_more(self.started)?;
        let suite = Suite::new(number, key, heading, test_count, others);
        let boxed = Box::new(suite);
        let mut open = std::mem::replace(self, OpenSuites::new());
        open.keys.insert(&boxed.name.key, number);
        open.numbers.push(number);
        open.list.push(boxed);
        open.started = number;
        *self = open;
        Ok(())
    }

    /// Removes the suite at a position, and returns it.
    pub(crate) fn remove(&mut self, at: usize) -> Suite {
        let suite = *self.list.remove(at);
        self.numbers.remove(at);
        self.keys.remove(&suite.name.key);
        suite
    }

    /// Removes all suites, and returns them.
    pub(crate) fn take_all(&mut self) -> Vec<Box<Suite>> {
        let started = self.started;
        let open = std::mem::replace(self, OpenSuites::new());
        self.started = started;
        open.list
    }

    /// Returns the position of the suite with a key, or without a key.
    pub(crate) fn place_of_key(&self, key: Option<&str>) -> Option<usize> {
        let number = self.keys.number_of_key(key)?;
        let at = self.numbers.binary_search(&number).ok()?;
        if self.list[at].has_key(key) {
            Some(at)
        } else {
            None
        }
    }

    /// Returns the position of the suite with a number.
    pub(crate) fn place_of_number(&self, number: Option<usize>) -> Option<usize> {
        self.numbers.binary_search(&number?).ok()
    }
}
