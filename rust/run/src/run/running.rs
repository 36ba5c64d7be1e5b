// Made by tools/erase from crates/test_report_run/src/running.rt. Do not edit.
//! The tests that are running.

mod changes;
mod names;

use crate::run::running::names::NameOrders;
use std::collections::{BTreeMap, BTreeSet};

/// A test that is running.
#[derive(Clone, Debug)]
pub struct RunningTest {
    /// The name in the line of its start.
    pub(crate) name: String,

    /// The number of its suite, or `None` if it started outside of a suite.
    pub(crate) suite: Option<usize>,

    /// The number of tests that started before it.
    pub(crate) order: usize,

    /// True if a line says that it is slow.
    pub(crate) slow: bool,
}

/// The tests that are running, in the order in which they started.
#[derive(Clone, Debug)]
pub struct Running {
    /// The tests, by the number of tests that started before each.
    tests: BTreeMap<usize, RunningTest>,

    /// The numbers of the tests of each name.
    names: NameOrders,

    /// The numbers of the tests of each suite.
    suites: BTreeSet<(Option<usize>, usize)>,

    started: usize,
}
