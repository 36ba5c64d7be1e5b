//! The suites of a run as keys.

use std::rc::Rc;

/// A suite, or the tests outside of a suite. The notes of a suite share its name, and no other suite has this copy of it,
/// so suites of the same name differ. It is a key only while the name is in memory.
#[derive(Clone, Copy, PartialEq, Eq, PartialOrd, Ord)]
pub(crate) struct SuiteKey(Option<*const String>);

impl SuiteKey {
    /// Returns the key of the suite that has this name, or of the tests outside of a suite.
    pub(crate) fn of(name: Option<&Rc<String>>) -> SuiteKey {
        SuiteKey(name.map(Rc::as_ptr))
    }
}
