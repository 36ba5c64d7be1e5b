//! The counters of a run and the reasons to cancel one, by their names in the source, and all levels and
//! displays.

use crate::c_values::codes;
use deodarsieve::{CancelReason, FinalStatusLevel, RunStats, TestOutputDisplay};
use serde::Deserialize;
use serde::de::value::{Error, MapDeserializer};
use std::sync::LazyLock;

/// The names of the counters, in the order of the fields of `RunStats`.
pub static COUNTERS: LazyLock<Vec<String>> = LazyLock::new(|| {
    let text = format!("{:?}", RunStats::default());
    let (_, fields) = text.split_once(" { ").expect("a struct has fields");
    let zeros = fields
        .split(", ")
        .filter_map(|field| field.strip_suffix(": 0"));
    zeros.map(String::from).collect()
});

/// Returns counters with the values that a function has for their names, and no reason to cancel.
pub fn counters_by(mut value_of: impl FnMut(&str) -> usize) -> RunStats {
    let members = COUNTERS
        .iter()
        .map(|name| (name.replace('_', "-"), value_of(name)));
    let members = MapDeserializer::<_, Error>::new(members);
    RunStats::deserialize(members).expect("each counter has a value")
}

/// Returns no reason to cancel, and all reasons, the least severe first.
pub fn reasons() -> Vec<Option<CancelReason>> {
    let mut reasons = codes::REASONS.to_vec();
    reasons.sort();
    reasons
}

/// Returns all final levels, the least first.
pub fn final_levels() -> Vec<FinalStatusLevel> {
    let mut levels: Vec<_> = (0..).map_while(codes::final_level).collect();
    levels.sort();
    levels
}

/// Returns all settings for when output is displayed.
pub fn displays() -> Vec<TestOutputDisplay> {
    (0..).map_while(codes::display).collect()
}

/// Returns the word for a reason: `test-failure` for `TestFailure`, and `-` for no reason.
pub fn word_of(reason: Option<CancelReason>) -> String {
    let Some(reason) = reason else {
        return String::from("-");
    };
    let mut word = String::new();
    for letter in format!("{reason:?}").chars() {
        if letter.is_uppercase() && !word.is_empty() {
            word.push('-');
        }
        word.push(letter.to_ascii_lowercase());
    }
    word
}
