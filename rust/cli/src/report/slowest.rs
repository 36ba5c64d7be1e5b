//! The slowest tests of a run.

use std::cmp::Reverse;
use std::collections::BTreeMap;

/// The slowest tests so far, the slowest first. Of two with the same time the earlier one is first.
pub(crate) struct Slowest<T> {
    /// The tests by their times in microseconds, and by how many were added before them.
    tests: BTreeMap<(Reverse<u64>, usize), T>,
    added: usize,
    most: usize,
}

impl<T> Slowest<T> {
    /// Returns an empty list, which keeps at most `most` tests.
    pub(crate) fn new(most: usize) -> Slowest<T> {
        Slowest {
            tests: BTreeMap::new(),
            added: 0,
            most,
        }
    }

    /// Adds a test if its time is known and it is one of the slowest so far.
    pub(crate) fn add(&mut self, time: Option<u64>, test: impl FnOnce() -> T) {
        let Some(time) = time else {
            return;
        };
        let key = (Reverse(time), self.added);
        let is_among = self.tests.len() < self.most
            || self
                .tests
                .last_key_value()
                .is_some_and(|last| key < *last.0);
        if is_among {
            self.tests.insert(key, test());
            self.added += 1;
        }
        if self.tests.len() > self.most {
            self.tests.pop_last();
        }
    }

    /// Returns the tests with their times, the slowest first.
    pub(crate) fn into_tests(self) -> impl Iterator<Item = (u64, T)> {
        self.tests
            .into_iter()
            .map(|((time, _), test)| (time.0, test))
    }
}
