//! The levels of one finished test.
//!
//! A case is `RESULT ATTEMPTS SETTING SLOW LEVEL FINAL_LEVEL`.

use crate::common::{FINAL_LEVELS, STATUS_LEVELS};
use crate::upstream_replay::unit::test_in;
use deodarsieve::{FinalStatusLevel, StatusLevel};

/// Returns the level that a word names.
pub fn named_level(word: &str) -> Option<StatusLevel> {
    STATUS_LEVELS
        .into_iter()
        .find(|level| format!("{level:?}") == word)
}

/// Returns the final level that a word names.
pub fn named_final_level(word: &str) -> Option<FinalStatusLevel> {
    FINAL_LEVELS
        .into_iter()
        .find(|level| format!("{level:?}") == word)
}

/// Returns true if the crates have the result of a case, or `None` if the text is not a case.
pub fn agrees(case: &str) -> Option<bool> {
    let words: Vec<&str> = case.split(' ').collect();
    let [test @ .., level, final_level] = words.as_slice() else {
        return None;
    };
    let test = test_in(test)?;
    let description = test.describe();
    let levels = (description.status_level(), description.final_status_level());
    Some(levels == (named_level(level)?, named_final_level(final_level)?))
}
