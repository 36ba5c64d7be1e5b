// Made by tools/erase from crates/report_text/src/lib.rt. Do not edit.
//! A text that is safe to show on a terminal and in the log of a CI system, whatever is pushed.
//!
//! - Control characters and characters that change the direction of writing are escapes, such as `\u{1b}`. Colours,
//!   links and commands of GitHub's runner have calls of their own.
//! - What would be a command of a CI system in a log is an escape: the second colon of `::` at the start of a line, and
//!   the bracket of `##[`. It does not matter how the text was divided, or where colours are in it.

mod command;
mod line;
mod sequence;
mod shown;
mod text;

pub use crate::report_text::command::{Kind, Property, PropertyName};
pub use crate::report_text::sequence::Style;
pub use crate::report_text::text::ReportText;
