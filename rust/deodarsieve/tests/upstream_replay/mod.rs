//! Replays stored results of nextest's own functions, and worked examples, through the public calls of
//! the crate.
//!
//! `data/upstream_replay.txt.gz` has a case in each line: the name of its kind, a space, and the case.
//! Each module has the form of its kind of case. A line that begins with `changed` has a case with
//! another result than nextest's, and a line that begins with `malformed` has no case. These two kinds
//! show that the replay notices a wrong line. The rows of `SerializableError` as JSON are compared with
//! the feature `serde_json` alone.

mod counter;
mod escapes;
mod extract;
mod heads;
mod hexadecimal;
mod level;
mod lines;
mod rows;
mod unit;
mod visibility;
mod words;

use lines::{agrees, unpacked};

/// What lines begin with.
const KINDS: [&str; 8] = [
    "counter",
    "extract",
    "heads",
    "level",
    "row",
    "visibility",
    "changed",
    "malformed",
];

const PACKED: &[u8] = include_bytes!("../data/upstream_replay.txt.gz");

/// Returns true if the crate has the result of a line, or `None` if the line has no case.
fn agrees_as_it_is(line: &str) -> Option<bool> {
    let (kind, case) = line.split_once(' ')?;
    match kind {
        "counter" => counter::agrees(case),
        "extract" => extract::agrees(case),
        "heads" => heads::agrees(case),
        "level" => level::agrees(case),
        "row" => rows::agrees(case),
        "visibility" => visibility::agrees(case),
        _ => None,
    }
}

/// Returns true if the case of a line can be compared with the features that are on.
fn is_compared(line: &str) -> bool {
    cfg!(feature = "serde_json") || !line.starts_with("row SerializableError | ")
}

#[test]
fn all_lines_agree() {
    let lines = unpacked(PACKED);
    for kind in KINDS {
        let begins = |line: &str| line.split(' ').next() == Some(kind);
        assert!(lines.lines().any(begins), "no line begins with {kind}");
    }
    let wrong: Vec<&str> = lines
        .lines()
        .filter(|line| is_compared(line) && agrees(line, agrees_as_it_is) != Some(true))
        .collect();
    assert!(wrong.is_empty(), "{}", wrong.join("\n"));
}
