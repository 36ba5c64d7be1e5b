// Made by tools/erase from crates/test_report_run/src/texts.rt. Do not edit.
//! Texts that may be absent.

/// Copies a text that may be absent.
pub(crate) fn owned(text: Option<&str>) -> Option<String> {
    match text {
        Some(text) => Some(String::from(text)),
        None => None,
    }
}
