// Made by tools/erase from crates/test_report_run/src/open_suites.rt. Do not edit.
//! The open suites of a run.

mod changes;
mod keys;

use crate::run::open_suites::keys::KeyNumbers;
use crate::run::suite::Suite;

/// The open suites in the order of their first lines. They have the numbers of their first lines, and are found by
/// their numbers and their keys.
#[derive(Clone, Debug)]
pub(crate) struct OpenSuites {
    /// The suites. They are boxed because a suite that ends is removed from among them, which moves all later
    /// ones.
    pub(crate) list: Vec<Box<Suite>>,

    /// The number of each of them.
    numbers: Vec<usize>,

    /// Their numbers by their keys.
    keys: KeyNumbers,

    /// The number of suites that started.
    started: usize,
}
