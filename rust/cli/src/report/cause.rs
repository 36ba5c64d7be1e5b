//! The cause of a failure, by which failures are grouped.

use crate::report::failure::ShownFailure;
use crate::report::model::FailedResult;
use std::borrow::Cow;
use std::collections::HashMap;
use std::collections::hash_map::Entry;
use std::hash::Hash;

/// What failed tests have in common if they failed in the same way: the result, the place and the short reason. Its texts
/// are not escaped.
#[derive(Clone, Debug, PartialEq, Eq, Hash)]
pub(crate) struct Cause {
    pub(crate) result: FailedResult,

    /// The place in the sources, if it is known, such as `src/lib.rs:9:32`.
    pub(crate) place: Option<String>,

    /// The short reason, without the place at its front.
    pub(crate) reason: String,
}

impl Cause {
    /// Returns the cause of a failure.
    pub(crate) fn of(failure: &ShownFailure<'_>) -> Cause {
        let place = failure.place.map(|place| place.to_string());
        let short = failure.short();
        let reason = match &place {
            Some(place) => without_place(&short, place),
            None => short,
        };
        Cause {
            result: FailedResult::of(&failure.failure.kind),
            reason: reason.into_owned(),
            place,
        }
    }

    /// Returns the place, if it is known, and the reason.
    pub(crate) fn words(&self) -> String {
        match &self.place {
            Some(place) => format!("{place}: {}", self.reason),
            None => self.reason.clone(),
        }
    }
}

/// Returns items in groups of those with equal causes: the first one of each group and the others. A group is where its
/// first item is.
pub(crate) fn grouped<T, C: Eq + Hash>(
    items: impl IntoIterator<Item = T>,
    cause_of: impl Fn(&T) -> C,
) -> Vec<(T, Vec<T>)> {
    let mut groups: Vec<(T, Vec<T>)> = Vec::new();
    let mut places: HashMap<C, usize> = HashMap::new();
    for item in items {
        match places.entry(cause_of(&item)) {
            Entry::Occupied(place) => {
                let (_, others) = &mut groups[*place.get()];
                others.push(item);
            }
            Entry::Vacant(place) => {
                place.insert(groups.len());
                groups.push((item, Vec::new()));
            }
        }
    }
    groups
}

/// Returns a short reason without its place, which is shown before it.
fn without_place<'a>(short: &'a str, place: &str) -> Cow<'a, str> {
    let panicked = short.split_once(&format!("panicked at {place}:"));
    // With more numbers it is another place.
    let is_other = |rest: &str| rest.starts_with(|c: char| c.is_ascii_digit());
    if let Some((before, rest)) = panicked.filter(|(_, rest)| !is_other(rest)) {
        return match rest.trim_start() {
            "" => format!("{before}panicked").into(),
            rest if before.is_empty() => rest.into(),
            rest => format!("{before}{rest}").into(),
        };
    }
    let after_place = short.strip_prefix(&format!("{place}: "));
    after_place
        .or_else(|| short.strip_suffix(&format!(" at {place}")))
        .unwrap_or(short)
        .into()
}

#[cfg(test)]
mod tests {
    use super::without_place;

    #[test]
    fn a_place_is_not_said_twice() {
        for (short, place, wanted) in [
            (
                "panicked at src/lib.rs:9:32: refused",
                "src/lib.rs:9:32",
                "refused",
            ),
            (
                "panicked at src/lib.rs:9:32:",
                "src/lib.rs:9:32",
                "panicked",
            ),
            (
                "its process ended before it did (signal: 6, SIGABRT): panicked at a.rs:1:2: lost",
                "a.rs:1:2",
                "its process ended before it did (signal: 6, SIGABRT): lost",
            ),
            (
                "src/lib.rs:9: panicked at src/a.rs:1:2: no",
                "src/lib.rs:9",
                "panicked at src/a.rs:1:2: no",
            ),
            (
                "test did not panic as expected at a.rs:1:2",
                "a.rs:1:2",
                "test did not panic as expected",
            ),
            ("panicked at src/lib.rs:9:3", "src/lib.rs:9:3", "panicked"),
            (
                "panicked at a.rs:9:3: no",
                "a.rs:9",
                "panicked at a.rs:9:3: no",
            ),
            ("Error: refused", "src/lib.rs:9:3", "Error: refused"),
        ] {
            assert_eq!(without_place(short, place), wanted, "{short}");
        }
    }
}
