// Made by tools/erase from crates/run_events_attempts/src/child/error_list.rt. Do not edit.
//! A list of at least one error.

use alloc::vec::Vec;
use core::slice::Iter;

/// The errors of one operation, with a description of the operation. There is always at least one.
#[derive(Clone, Debug, PartialEq, Eq)]
pub struct ErrorList<T> {
    pub(crate) description: alloc::borrow::Cow<'static, str>,
    pub(crate) errors: Vec<T>,
}

impl<T> ErrorList<T> {
    /// Returns a list of these errors, or `None` if there are none.
    #[must_use]
    pub fn new(description: &'static str, errors: Vec<T>) -> Option<Self> {
        if errors.is_empty() {
            None
        } else {
            Some(ErrorList {
                description: description.into(),
                errors,
            })
        }
    }

    /// Returns the description of the operation.
    #[must_use]
    pub fn description(&self) -> &str {
        &self.description
    }

    /// Returns the number of errors, which is at least 1.
    #[must_use]
    pub fn len(&self) -> usize {
        self.errors.len()
    }

    /// Returns an iterator over the errors.
    pub fn iter(&self) -> Iter<'_, T> {
        self.errors.iter()
    }
}

impl<'a, T> IntoIterator for &'a ErrorList<T> {
    type Item = &'a T;

    type IntoIter = Iter<'a, T>;

    fn into_iter(self) -> Iter<'a, T> {
        self.iter()
    }
}

impl<T> IntoIterator for ErrorList<T> {
    type Item = T;

    type IntoIter = alloc::vec::IntoIter<T>;

    fn into_iter(self) -> alloc::vec::IntoIter<T> {
        let ErrorList {
            description: _,
            errors,
        } = self;
        errors.into_iter()
    }
}
