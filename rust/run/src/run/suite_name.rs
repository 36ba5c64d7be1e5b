// Made by tools/erase from crates/test_report_run/src/suite_name.rt. Do not edit.
//! The name of a suite.

use std::rc::Rc;

/// The number and the texts that can name a suite, and the name that they give it. The name is made once, and the
/// notes of the suite share it.
#[derive(Clone, Debug)]
pub(crate) struct SuiteName {
    /// The number of the suite, from 1 on in the order of first lines, or `None` for the tests outside of a
    /// suite.
    pub(crate) number: Option<usize>,

    /// The key of the suite.
    pub(crate) key: Option<String>,

    /// The last heading before the suite started.
    pub(crate) heading: Option<Rc<String>>,

    /// The name in the first line of a test of the suite.
    pub(crate) first_test: Option<String>,

    /// The name of the suite, or `None` for the tests outside of a suite.
    shown: Option<Rc<String>>,
}

impl SuiteName {
    /// Returns the name of the tests outside of a suite.
    pub(crate) fn outside() -> SuiteName {
        SuiteName {
            number: None,
            key: None,
            heading: None,
            first_test: None,
            shown: None,
        }
    }

    /// Returns the name of a suite before its first test.
    pub(crate) fn new(
        number: usize,
        key: Option<String>,
        heading: Option<Rc<String>>,
    ) -> SuiteName {
        let number = Some(number);
        let shown = shown_name(number, given_name(&key, &heading, None));
        SuiteName {
            number,
            key,
            heading,
            first_test: None,
            shown,
        }
    }

    /// Takes the name in a line of a test of the suite.
    pub(crate) fn take_test(&mut self, name: &str) {
        if self.first_test.is_some() {
            return;
        }
        let given = given_name(&self.key, &self.heading, Some(name));
        let shown = shown_name(self.number, given);
        let first_test = String::from(name);
        self.first_test = Some(first_test);
        self.shown = shown;
    }

    /// Returns the name, or `None` for the tests outside of a suite.
    pub(crate) fn shown(&self) -> Option<Rc<String>> {
        self.shown.clone()
    }

    /// Returns the text of the name, or `None` for the tests outside of a suite.
    pub(crate) fn shown_text(&self) -> Option<&str> {
        match &self.shown {
            Some(shown) => Some(shown.as_str()),
            None => None,
        }
    }
}

/// Returns the name that texts give a suite: its key, or else the heading, or else the part of its first
/// test's name before the first `$`. No other suite shares it.
fn given_name<'a>(
    key: &'a Option<String>,
    heading: &'a Option<Rc<String>>,
    first_test: Option<&'a str>,
) -> Option<&'a str> {
    match (key, heading) {
        (Some(key), _) => Some(key.as_str()),
        (None, Some(heading)) => Some(heading.as_str()),
        (None, None) => before_dollar(first_test),
    }
}

/// Returns the part of the name of a test before the first `$`.
fn before_dollar(test: Option<&str>) -> Option<&str> {
    let (name, _) = test?.split_once('$')?;
    Some(name)
}

/// Returns the name of a suite: the given one, or else `suite` and its number. The tests outside of a suite
/// have none.
fn shown_name(number: Option<usize>, given: Option<&str>) -> Option<Rc<String>> {
    let Some(number) = number else {
        return None;
    };
    let name = match given {
        Some(given) => String::from(given),
        None => format!("suite {number}"),
    };
    Some(Rc::new(name))
}
