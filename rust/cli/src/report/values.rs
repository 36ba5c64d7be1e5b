//! Values for templates.
//!
//! An item of a list has its own values, and a list without items is absent. Names are in lower case:
//!
//! | values | of |
//! |---|---|
//! | `outcome` | the run: a word |
//! | `finished`, `passed`, `flaky`, `failed`, `timed_out`, `crashed`, `skipped`, `not_run` | its tests, as numbers |
//! | `slow` | the tests that passed and were slow, if there are some: a `count` |
//! | `time` | the run, if its time is known |
//! | `bar` | the run, unless no test is known: a `part` with a `class` and a `number` for each number that is not 0 |
//! | `comparison` | the run, if there is an earlier one: its `line`, or the numbers `new`, `still` and `fixed`. If tests are fixed, `fixed` of a page and `tests` of a summary have their `count` and a `test` for each |
//! | `problems` | a `problem` with a `line` and, if anything explains it, `why` (its `text`) |
//! | `failures` | a `failed` for each group, with a heading and what its first test has to say. The heading is `one`, the row of the only test, or a `group` with `status`, `new` and `count`. Both have `short` |
//! | `tests` | a group with several tests: a `test` for each, with its row and, in a page, its `output` if that is not the one of the first |
//! | `why` or, in a page, `piece` | a `failed`: why the first test failed. A page has pieces of texts of tests, each of which is `plain` or `coloured` (its `class` and its `text`) |
//! | `output` | a `failed`, if why does not show all of the output: the output, its `lines` (a number) and, in a page, `what` it is |
//! | `suites` | a `suite` with `name`, `words`, `bar` (as above) and `time` |
//! | `slowest` | a `slow` test with `name`, `share` (of the longest time, in hundredths) and `seconds` |
//! | `skips` | a `skip` with `name` and `reason`: a skipped test that has a reason |
//! | `flaky_tests` | a `test` with `name`, `attempts` and `time`: one that passed after several attempts. An `attempt` of it, with `number`, `short` and `piece`s, says why it failed |
//! | `more` | what a summary leaves out, if it does: a `count` of failed tests, or of names in a list. The template has nothing for other problems, so their number is the `line` of a last one |
//! | `ran`, `no_tests` | the run in a summary: its `outcome`, or that no test ran |
//!
//! The row of a test is `status`, `new` (its `words`), `suite` (its `name`), `name` and `note`. A `note` has `attempts` with
//! a `count`, if there were several, and a `time`. A `time` has `seconds`. If a `line`, a `short`, or the `name` of a test or
//! of its suite has an `@`, there is an item without values beside it: `line_code`, `short_code` or `name_code`.

use crate::report::escape::{name_in_document, text};
use crate::report::model::{ReportModel, Seconds};
use crate::report::output::{Document, Template};
use crate::report::words::seconds_text;
use crate::template::{Part, Value, push_item, push_section, push_text, render};

/// Values for a template.
#[derive(Default)]
pub(crate) struct Values(Vec<Value>);

impl Values {
    /// Returns no values, with room for this number of them. Documents have many short lists, so spare room counts.
    pub(crate) fn with_room(count: usize) -> Values {
        Values(Vec::with_capacity(count))
    }

    /// Returns values with one text.
    pub(crate) fn of(name: &'static str, text: impl Into<String>) -> Values {
        Values::with_room(1).text(name, text)
    }

    /// Adds a text.
    pub(crate) fn text(mut self, name: &'static str, text: impl Into<String>) -> Values {
        push_text(&mut self.0, name, text.into());
        self
    }

    /// Adds a number.
    pub(crate) fn number(self, name: &'static str, number: impl ToString) -> Values {
        self.text(name, number.to_string())
    }

    /// Adds an item of a list.
    pub(crate) fn item(mut self, list: &'static str, item: Values) -> Values {
        push_item(&mut self.0, list, item.0);
        self
    }

    /// Adds an item of a list, if there is one.
    pub(crate) fn some(self, list: &'static str, item: Option<Values>) -> Values {
        match item {
            Some(item) => self.item(list, item),
            None => self,
        }
    }

    /// Adds an item with a count, unless that is 0.
    pub(crate) fn count(self, list: &'static str, count: usize) -> Values {
        let item = (count > 0).then(|| Values::of("count", count.to_string()));
        self.some(list, item)
    }

    /// Adds an item without values, if a condition is true.
    pub(crate) fn mark(self, list: &'static str, condition: bool) -> Values {
        self.some(list, condition.then(Values::default))
    }

    /// Adds a list of items in a section of its own, unless there are none.
    pub(crate) fn section(
        mut self,
        section: &'static str,
        list: &'static str,
        items: impl Iterator<Item = Values>,
    ) -> Values {
        let mut values = Values::default();
        for item in items {
            values = values.item(list, item);
        }
        push_section(&mut self.0, section, values.0);
        self
    }

    /// Adds a time, if it is known.
    pub(crate) fn time(self, time: Option<Seconds>) -> Values {
        self.some(
            "time",
            time.map(|time| Values::of("seconds", seconds_text(time.0))),
        )
    }

    /// Adds the name of a suite, if there is one, and that of a test. Both are escaped.
    pub(crate) fn names(self, suite: Option<&str>, test: &str) -> Values {
        let named = |values: Values, shown: String| {
            values
                .mark("name_code", is_code(&shown))
                .text("name", shown)
        };
        let suite = suite.map(|suite| named(Values::with_room(1), name_in_document(suite)));
        named(self.some("suite", suite), name_in_document(test))
    }

    /// Returns true if there are no values.
    pub(crate) fn is_empty(&self) -> bool {
        self.0.is_empty()
    }

    /// Returns how many bytes these parts of a template render of the values.
    pub(crate) fn rendered_size(&self, parts: &[Part]) -> usize {
        let mut text = String::new();
        render(&mut text, parts, &self.0);
        text.len()
    }

    /// Returns what a template renders of the values.
    pub(crate) fn rendered(&self, template: Template) -> Document {
        Document::rendered(template, &self.0)
    }
}

/// Returns the numbers and the time of a run.
pub(crate) fn run_values(model: &ReportModel) -> Values {
    let numbers = model.numbers;
    Values::default()
        .number("finished", numbers.finished)
        .number("passed", numbers.passed)
        .number("flaky", numbers.flaky)
        .count("slow", numbers.slow)
        .number("failed", numbers.failed)
        .number("timed_out", numbers.timed_out)
        .number("crashed", numbers.crashed)
        .number("skipped", numbers.skipped)
        .number("not_run", numbers.not_run)
        .time(model.time)
}

/// Returns the values of a problem with this line and, if anything explains it, with this explanation.
pub(crate) fn problem_values(line: &str, why: Option<String>) -> Values {
    let line = text(line);
    let is_code = is_code(&line);
    Values::of("line", line)
        .some("why", why.map(|why| Values::of("text", why)))
        .mark("line_code", is_code)
}

/// Returns true if GitHub would take a part of a text for the name of a user or of an emoji, such as `@name` or `:key:`,
/// unless the text is code.
pub(crate) fn is_code(text: &str) -> bool {
    let is_of_name = |c: char| c.is_ascii_alphanumeric() || matches!(c, '_' | '+' | '-');
    let has_letter = |part: &str| part.contains(|c: char| c.is_ascii_alphabetic());
    let is_number = |part: &str| matches!(part, "100" | "1234" | "+1" | "-1");
    let is_name = |part: &str| is_number(part) || part.chars().all(is_of_name) && has_letter(part);
    let between = text
        .split_once(':')
        .and_then(|(_, rest)| rest.rsplit_once(':'));
    text.contains('@') || between.is_some_and(|(parts, _)| parts.split(':').any(is_name))
}

#[cfg(test)]
mod tests {
    use super::is_code;

    #[test]
    fn names_of_users_and_of_emojis_are_code() {
        for text in [
            "a@b",
            ":key:",
            "tests::key::works",
            "a:+1:b",
            "::x::y",
            "src/lib.rs:100:5: no",
        ] {
            assert!(is_code(text), "{text}");
        }
        for text in [
            "",
            "tests::adds",
            "src/lib.rs:9:32: no",
            "a: b: c",
            ":a b:",
            "::",
        ] {
            assert!(!is_code(text), "{text}");
        }
    }
}
