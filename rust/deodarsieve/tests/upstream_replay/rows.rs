//! Worked rows: a question, and the expected result.
//!
//! A case is `QUESTION => RESULT`. The parts of a question are separated by ` | `. The first part
//! is the name of a call or of another question. Results are compared as texts. A result without a
//! text of its own is compared by its debugging output.

mod attempts;
mod errors;
mod names;
mod outcomes;
mod results;
mod slices;
mod stress;
mod words;

/// Returns the result of the crates, or `None` if the parts are not a question.
fn answer(parts: &[&str]) -> Option<String> {
    results::answer(parts)
        .or_else(|| names::answer(parts))
        .or_else(|| attempts::answer(parts))
        .or_else(|| outcomes::answer(parts))
        .or_else(|| slices::answer(parts))
        .or_else(|| stress::answer(parts))
        .or_else(|| errors::answer(parts))
}

/// Returns true if the crates have the result of a case, or `None` if the text is not a case.
pub fn agrees(case: &str) -> Option<bool> {
    let (question, wanted) = case.split_once(" => ")?;
    let parts: Vec<&str> = question.split(" | ").collect();
    Some(answer(&parts)? == wanted)
}
