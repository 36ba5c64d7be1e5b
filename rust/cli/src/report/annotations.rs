//! Annotations of GitHub, and the names of failed tests.

use crate::report::cause::Cause;
use crate::report::colours::without_colours;
use crate::report::comparison::Comparison;
use crate::report::entry::Entry;
use crate::report::escape::line;
use crate::report::failure::ShownFailure;
use crate::report::limit::Limit;
use crate::report::model::PlaceModel;
use crate::report::options::Options;
use crate::report::output::Text;
use crate::report::problem::{Problem, ProblemSource};
use crate::report::words::{outcome_text, summary, title};
use crate::report_text::{Kind, Property, PropertyName};
use deodarsieve_run::RunEnd;
use std::collections::HashMap;

/// The annotations of a run. Of a step GitHub shows ten, so failed tests with the same cause have one, which is written at
/// the end of the run. Those of problems are written at once.
pub(crate) struct Annotations {
    options: Options,
    groups: Vec<Group>,

    /// Where in `groups` each cause is.
    places: HashMap<Cause, usize>,

    /// The annotations of problems that are not written yet.
    pub(crate) problems: Text,
}

/// Failed tests with the same cause.
struct Group {
    /// Their place in the sources, if it is known.
    properties: Vec<(PropertyName, String)>,
    cause: Cause,
    titles: Vec<String>,

    /// Why the first one failed.
    why: String,
}

/// An annotation of an error.
struct Annotation {
    properties: Vec<(PropertyName, String)>,
    message: String,
}

impl Annotations {
    /// Returns the annotations of a run without entries. Of the options they use only `limit`, `output` and `screen`.
    pub(crate) fn new(options: Options) -> Annotations {
        Annotations {
            options,
            groups: Vec::new(),
            places: HashMap::new(),
            problems: Text::new(options.without_raw()),
        }
    }

    /// Takes an entry: a problem, or what is needed of a failed test.
    pub(crate) fn on_entry(&mut self, entry: &Entry<'_>) {
        let text = &mut self.problems;
        match entry {
            Entry::Failed(failure) => self.on_failed(failure),
            Entry::Problem(problem) => Annotation::of_problem(problem).push(text),
            Entry::CompilerError(problem) => {
                Annotation::of_compiler_error(problem, self.options).push(text);
            }
            Entry::Passed(_)
            | Entry::Flaky(_)
            | Entry::Skipped(_)
            | Entry::Stopped(_)
            | Entry::Suite(_)
            | Entry::FailedTarget(_) => {}
        }
    }

    /// Keeps what is needed of a failed test.
    fn on_failed(&mut self, failure: &ShownFailure<'_>) {
        let cause = Cause::of(failure);
        let place = *self
            .places
            .entry(cause.clone())
            .or_insert(self.groups.len());
        if place == self.groups.len() {
            self.groups.push(Group {
                properties: place_properties(failure.place.map(PlaceModel::from)),
                cause,
                titles: Vec::new(),
                why: failure.why_by(self.options).text,
            });
        }
        self.groups[place].titles.push(title(failure.test));
    }

    /// Appends the annotations of the failed tests.
    pub(crate) fn push_failures(self, text: &mut Text) {
        let limit = Limit::of(self.options);
        for group in self.groups {
            group.into_annotation(limit).push(text);
        }
    }
}

impl Group {
    /// Returns the annotation of these tests: their place, their names, and why the first one failed.
    fn into_annotation(self, limit: Limit) -> Annotation {
        let (title, tests) = match self.titles.as_slice() {
            [title] => (title.clone(), title.clone()),
            titles => {
                let title = format!("{} tests: {}", titles.len(), self.cause.words());
                let names = titles.join("\n");
                (title.clone(), format!("{title}\n{}", limit.shown(&names)))
            }
        };
        let mut properties = self.properties;
        properties.push((PropertyName::Title, title));
        Annotation {
            properties,
            message: format!("{tests}\n{}", without_colours(&self.why)),
        }
    }
}

impl Annotation {
    /// Returns the annotation of a problem: its line, and what explains it.
    fn of_problem(problem: &Problem<'_>) -> Annotation {
        let mut message = problem.line.clone();
        if let Some(why) = &problem.why {
            message.push('\n');
            message.push_str(&why.shown());
        }
        Annotation {
            properties: Vec::new(),
            message,
        }
    }

    /// Returns the annotation of an error of the compiler: its place, its target and its text.
    fn of_compiler_error(problem: &Problem<'_>, options: Options) -> Annotation {
        let (mut properties, mut why) = (Vec::new(), None);
        if let Some(ProblemSource { target, error }) = problem.source {
            properties = place_properties(error.diagnostic().place().map(PlaceModel::from));
            properties.push((PropertyName::Title, format!("could not compile {target}")));
            why = error.text();
        }
        let message = match why {
            Some(why) => Limit::of(options).shown(&why).into_owned(),
            None => problem.line.clone(),
        };
        Annotation {
            properties,
            message,
        }
    }

    /// Appends the annotation as a command.
    fn push(&self, text: &mut Text) {
        let properties: Vec<_> = self
            .properties
            .iter()
            .map(|(name, value)| Property { name: *name, value })
            .collect();
        text.push_command(Kind::Error, &properties, &self.message);
    }
}

/// Returns the properties that say a place, if there is one.
fn place_properties(place: Option<PlaceModel>) -> Vec<(PropertyName, String)> {
    let Some(PlaceModel {
        file,
        line: number,
        column,
    }) = place
    else {
        return Vec::new();
    };
    let column = column.map(|column| (PropertyName::Column, column));
    let front = [
        (PropertyName::File, line(&file)),
        (PropertyName::Line, number),
    ];
    front.into_iter().chain(column).collect()
}

/// Appends the notice with the summary of a run, or that the tests could not be built, with the outcome, and with the
/// comparison with an earlier run if there is one.
pub(crate) fn push_notice(
    end: &RunEnd,
    is_build: bool,
    comparison: Option<&Comparison>,
    text: &mut Text,
) {
    let what = if is_build {
        "the tests could not be built".to_string()
    } else {
        summary(end)
    };
    let mut message = format!("{what}, outcome {}", outcome_text(end.outcome));
    if let Some(comparison) = comparison.filter(|_| !is_build) {
        message.push_str(&format!("\n{}", comparison.line()));
    }
    text.push_command(Kind::Notice, &[], &message);
}

/// Appends the name of a failed test as a line, for programs that run failed tests again.
pub(crate) fn push_failed_name(entry: &Entry<'_>, text: &mut Text) {
    if let Entry::Failed(failure) = entry {
        text.push_line(&failure.test.name);
        text.push("\n");
    }
}
