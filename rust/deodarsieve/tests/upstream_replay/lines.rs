//! What a line of a replay must be. The replay of `run-digest` in the workspace uses this file, too.

use flate2::read::GzDecoder;
use std::io::Read;

/// Returns true if a line is as it should be, or `None` if it should have a case and has none.
/// `agrees_as_it_is` says whether the case of a line has its result, if the line has a case.
pub fn agrees(line: &str, agrees_as_it_is: fn(&str) -> Option<bool>) -> Option<bool> {
    match line.split_once(' ') {
        Some(("changed", changed)) => Some(agrees_as_it_is(changed) == Some(false)),
        Some(("malformed", malformed)) => Some(agrees_as_it_is(malformed).is_none()),
        _ => agrees_as_it_is(line),
    }
}

/// Returns the text of a packed file.
pub fn unpacked(packed: &[u8]) -> String {
    let mut text = String::new();
    let read = GzDecoder::new(packed).read_to_string(&mut text);
    assert!(read.is_ok(), "the file is whole");
    text
}
